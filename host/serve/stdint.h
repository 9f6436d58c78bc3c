/* What feshangul.h needs of <stdint.h>: the kit's compiler comes without headers. */
typedef __UINT8_TYPE__ uint8_t;
typedef __UINT32_TYPE__ uint32_t;
typedef __UINT64_TYPE__ uint64_t;
