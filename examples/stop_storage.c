/* An automatic object that does not fit into the storage ends the run: `storage blocks`, status 121. */
static int deeper(int turns)
{
    char room[1 << 24];
    room[0] = turns;
    return turns ? deeper(turns - 1) + room[0] : room[0];
}

int main(void)
{
    return deeper(100);
}
