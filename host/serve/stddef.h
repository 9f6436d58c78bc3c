/* What feshangul.h needs of <stddef.h>: the kit's compiler comes without headers. */
typedef __SIZE_TYPE__ size_t;
