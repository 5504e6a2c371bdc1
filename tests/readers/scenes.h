/* The scenes that are tried. */
#ifndef SCENES_H
#define SCENES_H

void scenes(void);

#endif
