#include <emmintrin.h>
__m128i f(__m128i a, __m128i b) { return _mm_add_epi8(a, b); }
