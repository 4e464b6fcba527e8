void close(char *buffer, int debug)
{
    kfree(buffer);
    if (debug)
        /* metalcheck: free_checker -- a debug build keeps the page */
        dump(*buffer);
    *buffer = 0;
}
