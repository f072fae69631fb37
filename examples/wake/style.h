/* The style sheet of the page. */
#ifndef STYLE_H
#define STYLE_H

extern const char style[];

#endif
