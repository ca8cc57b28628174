/* Names of the functions of one build: each file is compiled once for each level of optimisation, and PREFIX tells the
 * builds apart (c_o2_exp, c_o3_exp). */
#ifndef NAMED_H
#define NAMED_H

#ifndef PREFIX
#error "PREFIX names the build, as in -DPREFIX=c_o2_"
#endif
#define JOINED(prefix, name) prefix##name
#define JOINED_AS_THEY_STAND(prefix, name) JOINED(prefix, name)
#define NAMED(name) JOINED_AS_THEY_STAND(PREFIX, name)

#endif
