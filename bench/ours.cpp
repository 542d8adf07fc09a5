// The library's side: one call, into lists that are there already.
#include "../include/ozoravesh.h"
#include "sides.h"

#if defined(__x86_64__)
#define operate ozoravesh_operate
#else
// The module is made for x86-64's convention: the answer is written through a pointer, the first parameter. There a C compiler passes that pointer
// unseen; on another processor it would pass it elsewhere, so here it is named.
extern "C" ozoravesh_made *by_pointer(ozoravesh_made *answer, uint32_t code, const double *a_points, size_t a_points_len, const uint32_t *a_corners,
                                      size_t a_corners_len, const double *b_points, size_t b_points_len, const uint32_t *b_corners,
                                      size_t b_corners_len, double *points, size_t points_len, uint32_t *corners, size_t corners_len,
                                      uint32_t *origins, size_t origins_len) __asm__("ozoravesh_operate");

template <typename... Lists> static ozoravesh_made operate(Lists... lists) {
    ozoravesh_made answer;
    by_pointer(&answer, lists...);
    return answer;
}
#endif

extern "C" __attribute__((noinline)) void measured_ours(uint32_t code, const Body &a, const Body &b, Out &out) {
    const ozoravesh_made m =
        operate(code, a.points.data(), a.points.size(), a.corners.data(), a.corners.size(), b.points.data(), b.points.size(), b.corners.data(),
                b.corners.size(), out.points.data(), out.points.size(), out.corners.data(), out.corners.size(), out.origins.data(), out.origins.size());
    out.made = m.answer.number == 0;
    out.vertices = m.vertices;
    out.triangles = m.triangles;
}
