/* Loaded before the program: a wait for the disk that is none, CALL, msync or fsync. The power cuts must notice. */
int CALL(void);

int CALL(void)
{
    return 0;
}
