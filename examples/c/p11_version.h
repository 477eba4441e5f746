/* Which library a program runs with. */
#ifndef P11_VERSION_H
#define P11_VERSION_H

#ifdef __cplusplus
extern "C" {
#endif

/* A line such as "p11 1.1.0; proved; sources 0123456789ab; rattle-kit-13f logic dac8208d650f15bf": the version, `proved` or
 * `not proved`, the sum of the sources that it was built from, and the toolchain's kit. It ends by a 0, and is the library's. */
const char *p11_version(void);

#ifdef __cplusplus
}
#endif
#endif
