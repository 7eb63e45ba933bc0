#ifndef SABER_CONFIG_H
#define SABER_CONFIG_H
/* Stands in for a file that a build would have made. `-I` with the folder of the real one goes first. */
#endif
