/* stdbool.h: for a compiler that comes without headers; see tools/hosts/README.md. */
#ifndef KIT_STDBOOL_H
#define KIT_STDBOOL_H

#define bool _Bool
#define false 0
#define true 1

#endif
