/* The constants of R-245ca, from 003 as 01 prints them, and of R-245fa, from 001. */
#include "fluid.h"

const struct fluid r245ca = {
    .name = "R-245ca",
    .Tc = 447.57,
    .rhoc = 3.92,
    .pc = 3940700,
    .R = 8.3144621,
    .M = 0.13404794,
    .T = { 196, 450 },
    .rho = { 0, 13 },
    .P = { 1, 10000000 },
    .top = 1664,
    /* 003, Table 2 */
    .row = {
        { PLAIN, 0.04489247, 1, .d = 4 },
        { PLAIN, 1.526476, 0.26, .d = 1 },
        { PLAIN, -2.408320, 1, .d = 1 },
        { PLAIN, -0.5288088, 1.2, .d = 2 },
        { PLAIN, 0.18222346, 0.67, .d = 3 },
        { DAMPED, -1.063228, 1.92, .d = 1, .l = 2 },
        { DAMPED, -0.2231490, 2, .d = 3, .l = 2 },
        { DAMPED, 1.187380, 1.5, .d = 2, .l = 1 },
        { DAMPED, -0.9772383, 1.93, .d = 2, .l = 2 },
        { DAMPED, -0.02296938, 1.06, .d = 7, .l = 1 },
        { BELL, 1.364444, 0.17, .d = 1, .eta = 1.16, .beta = 2.4, .gamma = 1.265, .epsilon = 0.55 },
        { BELL, -0.5080666, 3.9, .d = 1, .eta = 1.1, .beta = 1.5, .gamma = 0.42, .epsilon = 0.724 },
        { BELL, -0.06649496, 1, .d = 3, .eta = 1.64, .beta = 4.2, .gamma = 0.864, .epsilon = 0.524 },
        { BELL, -1.128359, 1, .d = 3, .eta = 13.8, .beta = 379, .gamma = 1.15, .epsilon = 0.857 },
    },
    /* 003, equation 6 */
    .a1 = -18.09410031,
    .a2 = 8.996084665,
    .c0 = 8.888,
    .pair = { { 0.8843, 865 }, { 14.46, 1122 }, { 5.331, 2830 } },
    /* 003, equations 1 to 3 */
    .saturation_pressure = {
        4, { { -7.8757, 1 }, { 2.0426, 1.5 }, { -3.3614, 2.6 }, { -4.8567, 5.2 } } },
    .liquid_density = {
        5, { { 4.0075, 0.48 }, { -4.6786, 1 }, { 6.6575, 1.6 }, { -5.096, 2.4 }, { 2.364, 3.5 } } },
    .vapour_density = {
        5, { { -4.8138, 0.505 }, { -5.557, 1.65 }, { -11.257, 2.5 }, { -55.775, 5.5 },
             { -138.45, 12 } } },
};

/* The constants are 001's, Table 1; its section 5 and M-100 have the limits. */
const struct fluid r245fa = {
    .name = "R-245fa",
    .Tc = 427.01,
    .rhoc = 3.875,
    .pc = 3651000,
    .R = 8.3144621,
    .M = 0.13404794,
    .T = { 170, 440 },
    .rho = { 0, 16 },
    .P = { 1, 200000000 },
    .top = 2048,
    /* 001, Table 6 */
    .row = {
        { PLAIN, 0.057506623, 1, .d = 4 },
        { PLAIN, 1.5615975, 0.27, .d = 1 },
        { PLAIN, -2.3614485, 0.9, .d = 1 },
        { PLAIN, -0.51773521, 1.09, .d = 2 },
        { PLAIN, 0.18509788, 0.4, .d = 3 },
        { DAMPED, -0.87405626, 2.9, .d = 1, .l = 2 },
        { DAMPED, -0.27530955, 1.7, .d = 3, .l = 2 },
        { DAMPED, 0.57971151, 0.8, .d = 2, .l = 1 },
        { DAMPED, -0.39934306, 3.6, .d = 2, .l = 2 },
        { DAMPED, -0.033230277, 1.05, .d = 7, .l = 1 },
        { BELL, 0.83210508, 1.8, .d = 1, .eta = 1.011, .beta = 1.879, .gamma = 1.081, .epsilon = 0.709 },
        { BELL, -0.33544300, 4, .d = 1, .eta = 1.447, .beta = 2.454, .gamma = 0.651, .epsilon = 0.939 },
        { BELL, -0.10117801, 4.5, .d = 3, .eta = 1.079, .beta = 1.256, .gamma = 0.468, .epsilon = 0.703 },
        { BELL, -0.0091495867, 2, .d = 3, .eta = 7.86, .beta = 21.1, .gamma = 1.293, .epsilon = 0.777 },
    },
    /* 001, Table 5 */
    .a1 = -13.38560883,
    .a2 = 9.845374371,
    .c0 = 4.0,
    .pair = { { 5.5728, 222 }, { 10.385, 1010 }, { 12.554, 2450 } },
    /* 001, equations 4 to 6 */
    .saturation_pressure = {
        4, { { -7.8353, 1 }, { 1.7746, 1.5 }, { -3.1305, 2.5 }, { -3.4216, 5 } } },
    .liquid_density = {
        4, { { 0.46367, 0.17 }, { 2.2375, 0.5 }, { -0.27579, 1.3 }, { 0.55136, 2.5 } } },
    .vapour_density = {
        5, { { -0.99583, 0.24 }, { -2.6109, 0.61 }, { -4.4141, 1 }, { -18.573, 2.7 },
             { -55.961, 5.95 } } },
};

const struct fluid *fluid_numbered(uint64_t number)
{
    static const struct fluid *const fluids[FLUIDS] = { &r245ca, &r245fa };
    return number < FLUIDS ? fluids[number] : NULL;
}
