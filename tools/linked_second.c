/* The second of the objects that tools/compare-with-ld links. */
extern int table[6];
extern __thread int own;

static int calls;
char buffer[100];
unsigned short port = 80;
const short limits[5] = { 1, 2, 4, 8, 16 };
__attribute__((section(".names.d"))) const int name_d = 4;
__attribute__((section(".names.b"))) const int name_b = 2;
__thread char mark = 'm';
__thread char gap[3];

__attribute__((weak)) int extra = 11;

__attribute__((constructor)) static void begin(void)
{
	buffer[0] = mark + gap[1];
}

__attribute__((aligned(64))) int second(int value)
{
	calls += value;
	return table[2] + calls + limits[value % 5] + port + extra;
}
