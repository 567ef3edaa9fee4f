// Boost's Carlson integrals under C names, for bench/run where its headers are there. Templates have no symbol of their own.
// By itself Boost works on long double, which is software on aarch64; here on double, as the crate does.
#include <boost/math/special_functions/ellint_rc.hpp>
#include <boost/math/special_functions/ellint_rd.hpp>
#include <boost/math/special_functions/ellint_rf.hpp>
#include <boost/math/special_functions/ellint_rg.hpp>
#include <boost/math/special_functions/ellint_rj.hpp>

using namespace boost::math;
using plain = policies::policy<policies::promote_double<false>>;

extern "C" {
double boost_rc(double x, double y) { return ellint_rc(x, y, plain()); }
double boost_rf(double x, double y, double z) { return ellint_rf(x, y, z, plain()); }
double boost_rd(double x, double y, double z) { return ellint_rd(x, y, z, plain()); }
double boost_rg(double x, double y, double z) { return ellint_rg(x, y, z, plain()); }
double boost_rj(double x, double y, double z, double p) { return ellint_rj(x, y, z, p, plain()); }
}
