/* text.h: TEXT(NAME) is the figure that a header has under this name, as a part of a message. */
#ifndef TEXT_H
#define TEXT_H

#define TEXT_OF(figure) #figure
#define TEXT(name) TEXT_OF(name)

#endif
