/*
 * Begins a page of code. The emulator follows a jump for less where it stays within a page, so that the
 * place that the linker happens to choose would decide the bench. host/build puts this before each of
 * the two sides.
 */
static __attribute__((aligned(4096), used)) void begin_page(void)
{
}
