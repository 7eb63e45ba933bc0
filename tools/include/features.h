#ifndef SABER_FEATURES_H
#define SABER_FEATURES_H
#endif
