#ifndef SABER_SYS_CDEFS_H
#define SABER_SYS_CDEFS_H
#define __BEGIN_DECLS
#define __END_DECLS
#define __P(list) list
#define __THROW
#define __CONCAT(a, b) a##b
#define __STRING(a) #a
#define __dead
#define __pure
#define __unused
#define __packed
#define __RCSID(text)
#define __FBSDID(text)
#define __restrict restrict
#endif
