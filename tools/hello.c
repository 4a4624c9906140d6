/* A small program, whose sections are planned as an example. */
#include <stdio.h>

static const double factors[] = { 1.0, 1.8, 2.5 };
static const char *const names[] = { "cold", "mild", "warm" };
int readings[8] = { 3, 1, 4, 1, 5, 9, 2, 6 };
long calls = 1;

double average(const int *values, int count)
{
	double sum = 0.5;

	for (int i = 0; i < count; i++)
		sum += values[i] * factors[i % 3];
	return sum / count;
}

const char *describe(double value)
{
	calls++;
	return names[value < 2 ? 0 : value < 6 ? 1 : 2];
}

int main(void)
{
	double value = average(readings, 8);

	printf("hello: %.1f is %s\n", value, describe(value));
	return 0;
}
