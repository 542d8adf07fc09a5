// The benchmark's bodies and cases. Every body is closed and has its facets counterclockwise seen from outside.
#pragma once
#include <algorithm>
#include <array>
#include <cmath>
#include <cstdint>
#include <map>
#include <string>
#include <utility>
#include <vector>

struct Body {
    std::vector<double> points;
    std::vector<uint32_t> corners;
};

struct Case {
    std::string name;
    Body a;
    Body b;
};

using Vec = std::array<double, 3>;

inline uint32_t add(Body &s, Vec v) {
    s.points.insert(s.points.end(), v.begin(), v.end());
    return static_cast<uint32_t>(s.points.size() / 3 - 1);
}

inline void add(Body &s, uint32_t p, uint32_t q, uint32_t r) {
    s.corners.insert(s.corners.end(), {p, q, r});
}

inline Vec vertex(const Body &s, uint32_t i) {
    return {s.points[3 * i], s.points[3 * i + 1], s.points[3 * i + 2]};
}

inline Body moved(Body s, Vec by) {
    for (size_t i = 0; i < s.points.size(); i++) {
        s.points[i] += by[i % 3];
    }
    return s;
}

inline Body sized(Body s, double by) {
    for (double &x : s.points) {
        x *= by;
    }
    return s;
}

// Turned about z, then y, then x, by angles that no facet of a body here has any relation to.
inline Body turned(Body s) {
    const double c = std::cos(0.3), d = std::sin(0.3), e = std::cos(0.5), f = std::sin(0.5), g = std::cos(0.7), h = std::sin(0.7);
    for (size_t i = 0; i < s.points.size(); i += 3) {
        const double x = s.points[i], y = s.points[i + 1], z = s.points[i + 2];
        const double x1 = c * x - d * y, y1 = d * x + c * y;
        const double x2 = e * x1 + f * z, z2 = e * z - f * x1;
        s.points[i] = x2;
        s.points[i + 1] = g * y1 - h * z2;
        s.points[i + 2] = h * y1 + g * z2;
    }
    return s;
}

// T of the sample table.
inline Body tetrahedron() {
    return {{0, 0, 0, 4, 0, 0, 0, 4, 0, 0, 0, 4}, {0, 2, 1, 0, 1, 3, 0, 3, 2, 1, 2, 3}};
}

// The unit box.
inline Body box() {
    Body s;
    for (uint32_t i = 0; i < 8; i++) {
        add(s, {double(i & 1), double(i >> 1 & 1), double(i >> 2)});
    }
    const uint32_t sides[6][4] = {{0, 2, 3, 1}, {4, 5, 7, 6}, {0, 1, 5, 4}, {2, 6, 7, 3}, {0, 4, 6, 2}, {1, 3, 7, 5}};
    for (const auto &q : sides) {
        add(s, q[0], q[1], q[2]);
        add(s, q[0], q[2], q[3]);
    }
    return s;
}

// Each facet in four, the new vertices put on the unit sphere.
inline Body finer(const Body &s) {
    Body r;
    r.points = s.points;
    std::map<std::pair<uint32_t, uint32_t>, uint32_t> middles;
    auto middle = [&](uint32_t p, uint32_t q) {
        const std::pair<uint32_t, uint32_t> key = std::minmax(p, q);
        auto found = middles.find(key);
        if (found != middles.end()) {
            return found->second;
        }
        Vec v = vertex(s, p), w = vertex(s, q);
        Vec m = {v[0] + w[0], v[1] + w[1], v[2] + w[2]};
        const double l = std::sqrt(m[0] * m[0] + m[1] * m[1] + m[2] * m[2]);
        uint32_t n = add(r, {m[0] / l, m[1] / l, m[2] / l});
        middles[key] = n;
        return n;
    };
    for (size_t f = 0; f < s.corners.size(); f += 3) {
        const uint32_t p = s.corners[f], q = s.corners[f + 1], t = s.corners[f + 2];
        const uint32_t pq = middle(p, q), qt = middle(q, t), tp = middle(t, p);
        add(r, p, pq, tp);
        add(r, pq, q, qt);
        add(r, tp, qt, t);
        add(r, pq, qt, tp);
    }
    return r;
}

inline Body octahedron() {
    return {{1, 0, 0, -1, 0, 0, 0, 1, 0, 0, -1, 0, 0, 0, 1, 0, 0, -1},
        {0, 2, 4, 2, 1, 4, 1, 3, 4, 3, 0, 4, 2, 0, 5, 1, 2, 5, 3, 1, 5, 0, 3, 5}};
}

inline Body icosahedron() {
    const double l = std::sqrt(1 + 0.25 * (1 + std::sqrt(5.0)) * (1 + std::sqrt(5.0)));
    const double u = 1 / l, w = 0.5 * (1 + std::sqrt(5.0)) / l;
    return {{-u, w, 0, u, w, 0, -u, -w, 0, u, -w, 0, 0, -u, w, 0, u, w, 0, -u, -w, 0, u, -w, w, 0, -u, w, 0, u, -w, 0, -u, -w, 0, u},
        {0, 11, 5, 0, 5, 1, 0, 1, 7, 0, 7, 10, 0, 10, 11, 1, 5, 9, 5, 11, 4, 11, 10, 2, 10, 7, 6, 7, 1, 8,
            3, 9, 4, 3, 4, 2, 3, 2, 6, 3, 6, 8, 3, 8, 9, 4, 9, 5, 2, 4, 11, 6, 2, 10, 8, 6, 7, 9, 8, 1}};
}

// 14 times 9 vertices in rings and two poles: 252 facets, all that 128 vertices allow. Each ring is turned by half a step against the one above
// it, so that no two facets lie in one plane. Every other vertex has the radius `low`.
inline Body rings(double low) {
    const uint32_t n = 14, m = 9;
    Body s;
    for (uint32_t j = 0; j < m; j++) {
        for (uint32_t i = 0; i < n; i++) {
            const double pi = 3.14159265358979323846, a = 2 * pi * (i + 0.5 * j) / n, b = pi * (j + 1) / (m + 1);
            const double r = (i + j) % 2 == 0 ? 1 : low;
            add(s, {r * std::sin(b) * std::cos(a), r * std::sin(b) * std::sin(a), r * std::cos(b)});
        }
    }
    const uint32_t top = add(s, {0, 0, 1}), bottom = add(s, {0, 0, -1});
    for (uint32_t i = 0; i < n; i++) {
        const uint32_t k = (i + 1) % n;
        add(s, top, i, k);
        for (uint32_t j = 0; j + 1 < m; j++) {
            const uint32_t p = j * n + i, q = j * n + k, t = p + n, u = q + n;
            add(s, p, t, q);
            add(s, q, t, u);
        }
        add(s, bottom, (m - 1) * n + k, (m - 1) * n + i);
    }
    return s;
}

inline std::vector<Case> cases() {
    const Vec aside = {0.31, 0.23, 0.17};
    const Vec almost = {1e-12, 1e-12, 1e-12};
    const Body c80 = finer(icosahedron()), c128 = finer(finer(octahedron())), c252 = rings(1), spiky = rings(0.5);
    return {
        {"tetrahedra", tetrahedron(), moved(turned(tetrahedron()), aside)},
        {"boxes", box(), moved(turned(box()), aside)},
        {"convex, 80 facets", c80, moved(turned(c80), aside)},
        {"convex, 128 facets", c128, moved(turned(c128), aside)},
        {"convex, 252 facets", c252, moved(turned(c252), aside)},
        {"spiky, 252 facets", spiky, moved(turned(spiky), aside)},
        {"252 facets, far apart by x", c252, moved(turned(c252), {5, aside[1], aside[2]})},
        {"252 facets, far apart by y", c252, moved(turned(c252), {aside[0], 5, aside[2]})},
        {"252 facets, far apart by z", c252, moved(turned(c252), {aside[0], aside[1], 5})},
        {"252 facets, one inside the other", c252, moved(sized(turned(c252), 0.25), aside)},
        {"boxes sharing a face", box(), moved(box(), {1, 0, 0})},
        {"boxes sharing an edge", box(), moved(box(), {1, 1, 0})},
        {"boxes sharing a vertex", box(), moved(box(), {1, 1, 1})},
        {"identical boxes", box(), box()},
        {"identical, 252 facets", c252, c252},
        {"boxes 1e-12 apart", box(), moved(box(), almost)},
        {"80 facets, 1e-12 apart", c80, moved(c80, almost)},
        {"252 facets, 1e-12 apart", c252, moved(c252, almost)},
    };
}
