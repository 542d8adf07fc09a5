// What is measured: one operation, lists in and lists out, by the library and by its peers.
#pragma once
#include "bodies.h"

// The lists out. `made` is false where no result was given.
struct Out {
    bool made = false;
    size_t vertices = 0;
    size_t triangles = 0;
    std::vector<double> points;
    std::vector<uint32_t> corners;
    std::vector<uint32_t> origins;
};

// Unmangled, so that a trace can be told to begin there. The peers are weak: where one cannot be had it is left out of the program.
extern "C" {
void measured_ours(uint32_t code, const Body &a, const Body &b, Out &out);
__attribute__((weak)) void measured_cgal(uint32_t code, const Body &a, const Body &b, Out &out);
__attribute__((weak)) void measured_manifold(uint32_t code, const Body &a, const Body &b, Out &out);
}
