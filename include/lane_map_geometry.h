/* Geometry. Written in Rattle and proved: crates/geometry_export has the contract of each function (libgeometry_export.a).

   Every function answers for every input. A coordinate or a component of a vector is a double; a polyline is a slice of coordinates,
   x, y and z in turn, handed over as a pointer and a count of doubles. The answer is written into arrays that the caller lends.

   The result is
     0  answered: the arrays hold the answer,
     9  a coordinate is not finite, beyond 2^26 in size, or missing (a count that is no multiple of 3),
     10 more than 64 points, given or asked for,
     4  a station, fraction or factor is not finite (lane_map.h's bad measure; the detail is always 3, station),
     LANE_MAP_NO_ANSWER  nothing is refused, and there is no answer.
   They are tested in this order, and every result but 0 leaves the arrays as they were. Arrays that are written must not overlap
   anything else that is lent. */
#ifndef LANE_MAP_GEOMETRY_H
#define LANE_MAP_GEOMETRY_H

#include <stddef.h>
#include <stdint.h>

#ifdef __cplusplus
extern "C" {
#endif

#define LANE_MAP_NO_ANSWER 254

/* ---- Points. */

uint64_t geometry_distance2(double ax, double ay, double bx, double by, double out[1]);

uint64_t geometry_distance3(double ax, double ay, double az, double bx, double by, double bz, double out[1]);

/* Between a (t = 0) and b (t = 1): x, y, z. */
uint64_t geometry_lerp(double ax, double ay, double az, double bx, double by, double bz, double t, double out[3]);

/* How far along a to b the point nearest to p is, from 0 to 1. */
uint64_t geometry_project_on_segment(double px, double py, double ax, double ay, double bx, double by, double out[1]);

/* ---- Vectors. */

/* The point's place in the plane: x, y. */
uint64_t geometry_flat(double px, double py, double pz, double out[2]);

/* a - b */
uint64_t geometry_sub2(double ax, double ay, double bx, double by, double out[2]);

/* a times t */
uint64_t geometry_scale2(double ax, double ay, double t, double out[2]);

uint64_t geometry_dot(double ax, double ay, double bx, double by, double out[1]);

uint64_t geometry_cross(double ax, double ay, double bx, double by, double out[1]);

uint64_t geometry_norm2(double ax, double ay, double out[1]);

/* The unit vector; none where the norm is not above 1e-9. */
uint64_t geometry_normalized(double ax, double ay, double out[2]);

/* Rotated by a quarter to the left. */
uint64_t geometry_perp(double ax, double ay, double out[2]);

/* a + b */
uint64_t geometry_add3(double ax, double ay, double az, double bx, double by, double bz, double out[3]);

/* a - b */
uint64_t geometry_sub3(double ax, double ay, double az, double bx, double by, double bz, double out[3]);

/* a times t */
uint64_t geometry_scale3(double ax, double ay, double az, double t, double out[3]);

uint64_t geometry_norm3(double ax, double ay, double az, double out[1]);

/* ---- Polylines. */

uint64_t geometry_length(const double *cs, size_t cs_len, double out[1]);

/* valid: 1 where it has at least two points and a length above 1e-9, else 0. */
uint64_t geometry_is_valid(const double *cs, size_t cs_len, uint64_t valid[1]);

/* The segment in which the station s lies, and how far along it, from 0 to 1; none where there are no points. */
uint64_t geometry_locate(const double *cs, size_t cs_len, double s, double fraction[1], uint64_t segment[1]);

/* The point at station s, which is held to the length; none where there are no points. */
uint64_t geometry_point_at(const double *cs, size_t cs_len, double s, double out[3]);

/* The point at a fraction t of the length, which is held to 0..1; none where there are no points. */
uint64_t geometry_point_at_fraction(const double *cs, size_t cs_len, double t, double out[3]);

/* The unit vector at station s, in the plane; none where no segment has a direction. */
uint64_t geometry_direction_at(const double *cs, size_t cs_len, double s, double out[2]);

/* The point that is nearest to p: its x, y, z, its distance in the plane, its station, and how far to the left of the segment p lies;
   segment: that segment. None where there are no points. */
uint64_t geometry_nearest_point(const double *cs, size_t cs_len, double px, double py, double out[6], uint64_t segment[1]);

/* ---- Polylines that are made, and stations. count: how many points or stations there are, from the first number on; what stands after
   them in the array has no meaning. */

/* The length up to each point. */
uint64_t geometry_stations(const double *cs, size_t cs_len, double out[64], uint64_t count[1]);

uint64_t geometry_reversed(const double *cs, size_t cs_len, double out[192], uint64_t count[1]);

/* n points in equal parts of the length; n counts as at least 2, and a line without points stays one. */
uint64_t geometry_resample_count(const double *cs, size_t cs_len, size_t n, double out[192], uint64_t count[1]);

/* Both sides resampled to the larger point count, and averaged point by point; none where a side has no points. */
uint64_t geometry_centerline(
    const double *left, size_t left_len, const double *right, size_t right_len, double out[192], uint64_t count[1]);

#ifdef __cplusplus
}
#endif

#endif
