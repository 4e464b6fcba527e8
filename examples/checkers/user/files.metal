// A file that a function opened is tested before it is used, and closed on each path, once, by the function for it. Run it with --depth 0.
sm files {
  state decl any_pointer f;
  decl any_arguments how;
  decl any_expr x, y, z;

  start:    { f = fopen(how) } && ${ mc_is_local(f) } || { f = fopen64(how) } && ${ mc_is_local(f) }
                || { f = fdopen(how) } && ${ mc_is_local(f) } || { f = tmpfile() } && ${ mc_is_local(f) } ==> f.fresh
          | { f = popen(how) } && ${ mc_is_local(f) } ==> f.pipe
          | { exit(how) } || { _exit(how) } || { abort() } || { longjmp(how) } || { siglongjmp(how) }
                || { err(how) } || { errx(how) } || { pthread_exit(how) } ==> stop
          | { 0 } ==> true=stop, false=start
          | { 1 } ==> true=start, false=stop;

  f.fresh:  { f } || { f = x } || { (void *)0 != f } || { 0 != f } ==> true=f.open, false=f.stop
          | { (void *)0 == f } || { 0 == f } ==> true=f.stop, false=f.open
          | { fgets(x, y, f) } || { fread(x, y, z, f) } || { fwrite(x, y, z, f) } || { fprintf(f, how) } || { fputs(x, f) } || { fgetc(f) }
                || { getc(f) } || { fputc(x, f) } || { putc(x, f) } || { fscanf(f, how) } || { fseek(f, how) } || { fclose(f) }
                ==> f.stop, { err("%s is used before it is known that it was opened", mc_identifier(f)); }
          | { x = f } || { f = x } ==> f.stop;

  // A mention is the last thing that is seen of a file that is returned or handed on; each use that only uses it leads back.
  f.open:   { f } ==> f.said
          | { f = x } ==> f.stop
          | $end_of_path$ && ${ mc_in_function("main") } ==> f.stop
          | $end_of_path$ ==> f.stop, { err("%s isn't closed on this path", mc_identifier(f)); };

  f.said:   { f } || { f != x } || { x != f } ==> true=f.open, false=f.stop
          | { f == x } || { x == f } ==> true=f.stop, false=f.open
          | { fclose(f) } ==> f.closed
          | { pclose(f) } ==> f.stop, { err("%s was not opened by popen", mc_identifier(f)); }
          | { x = f } || { f = x } ==> f.stop
          | { fgets(x, y, f) } || { fread(x, y, z, f) } || { fwrite(x, y, z, f) } || { fprintf(f, how) } || { vfprintf(f, how) }
                || { fputs(x, f) } || { fputc(x, f) } || { putc(x, f) } || { fgetc(f) } || { getc(f) } || { ungetc(x, f) }
                || { getline(x, y, f) } || { getdelim(x, y, z, f) } || { fscanf(f, how) } || { fflush(f) } || { feof(f) } || { ferror(f) }
                || { fseek(f, how) } || { fseeko(f, how) } || { ftell(f) } || { ftello(f) } || { rewind(f) } || { fileno(f) }
                || { clearerr(f) }
                || { setvbuf(f, how) } || { setbuf(f, x) } ==> f.open
          | $end_of_path$ ==> f.stop;

  f.closed: { fclose(f) } ==> f.stop, { err("%s is closed twice", mc_identifier(f)); }
          | { fgets(x, y, f) } || { fread(x, y, z, f) } || { fwrite(x, y, z, f) } || { fprintf(f, how) } || { fputs(x, f) } || { fgetc(f) }
                || { getc(f) } || { fputc(x, f) } || { putc(x, f) } || { fscanf(f, how) } || { fflush(f) } || { ferror(f) } || { feof(f) }
                ==> f.stop, { err("%s is used after it was closed", mc_identifier(f)); };

  f.pipe:   { fclose(f) } ==> f.stop, { err("%s was opened by popen: pclose closes it", mc_identifier(f)); }
          | { pclose(f) } || { x = f } || { f = x } ==> f.stop;
}
