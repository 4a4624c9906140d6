/* The first of two objects that tools/compare-with-ld links: sections of many kinds and alignments. */
extern char heap_start[], table_end[];
extern int second(int value);

int table[6] = { 3, 1, 4, 1, 5, 9 };
char letter = 'a';
short pair[3] = { 1, 2, 3 };
static long sums[4];
char bytes[7];
_Alignas(32) char block[40];
const double factor = 1.5;
const char greeting[] = "hello";
__attribute__((section(".names.c"))) const int name_c = 3;
__attribute__((section(".names.a"))) const int name_a = 1;
__thread int own = 4;
__thread long own_sums[2];

__asm__(".pushsection .vectors, \"a\"\n\t.balign 8\n\t.quad main, second, 0\n\t.popsection\n"
	".pushsection .remarks, \"\"\n\t.asciz \"made for a comparison\"\n\t.popsection");

__attribute__((weak)) int level(void)
{
	return letter;
}

__attribute__((constructor)) static void begin(void)
{
	sums[0] += own;
}

int main(void)
{
	own_sums[1] = bytes[0] + block[1];
	return second(table[0] + pair[1]) + level() + (heap_start != table_end);
}
