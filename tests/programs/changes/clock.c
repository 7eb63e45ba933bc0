int ticks = 0;
void tick(void) {
    ticks = ticks + 1;
}
