// QuantLib's Hull-White tree on the same work: its numerical fit to the curve, a coupon bond and an option that may be exercised on every row.
#include <ql/discretizedasset.hpp>
#include <ql/models/shortrate/onefactormodels/hullwhite.hpp>
#include <ql/termstructures/yieldtermstructure.hpp>
#include <ql/time/calendars/nullcalendar.hpp>
#include <ql/time/daycounters/actual365fixed.hpp>
#include <ql/timegrid.hpp>

using namespace QuantLib;

namespace {

// Both assets start from zero at their last row and are adjusted there.
class Asset : public DiscretizedAsset {
  public:
    void reset(Size size) override {
        values_ = Array(size, 0.0);
        adjustValues();
    }
    std::vector<Time> mandatoryTimes() const override { return {}; }
};

class CouponBond : public Asset {
  public:
    CouponBond(const double *flows, double step) : flows_(flows), step_(step) {}

  protected:
    void postAdjustValuesImpl() override {
        const long row = std::lround(time() / step_);
        if (row > 0)
            values_ += flows_[row - 1];
    }

  private:
    const double *flows_;
    double step_;
};

// Exercised on the bond before its row's flow is added: that flow stays with the seller.
class AmericanCall : public Asset {
  public:
    AmericanCall(ext::shared_ptr<CouponBond> bond, double strike) : bond_(std::move(bond)), strike_(strike) {}

  protected:
    void postAdjustValuesImpl() override {
        bond_->partialRollback(time());
        const Array &bond = bond_->values();
        for (Size k = 0; k < values_.size(); k++)
            values_[k] = std::max(values_[k], bond[k] - strike_);
        bond_->adjustValues();
    }

  private:
    ext::shared_ptr<CouponBond> bond_;
    double strike_;
};

// Discount factors of times 0, step, 2 step, ..., joined by straight lines of their logarithms.
class TableCurve : public YieldTermStructure {
  public:
    TableCurve(std::vector<double> logs, double step)
    : YieldTermStructure(Date(1, January, 2024), NullCalendar(), Actual365Fixed()), logs_(std::move(logs)), step_(step) {}
    Date maxDate() const override { return Date::maxDate(); }

  protected:
    DiscountFactor discountImpl(Time t) const override {
        const double place = t / step_;
        const Size below = std::min<Size>((Size)place, logs_.size() - 2);
        return std::exp(logs_[below] + (place - below) * (logs_[below + 1] - logs_[below]));
    }

  private:
    std::vector<double> logs_;
    double step_;
};

Handle<YieldTermStructure> curve;

}

extern "C" void quantlib_curve(size_t n, double step, const double *factors)
{
    std::vector<double> logs(1, 0.0);
    for (size_t t = 0; t < n; t++)
        logs.push_back(std::log(factors[t]));
    curve = Handle<YieldTermStructure>(ext::make_shared<TableCurve>(logs, step));
}

/* Fits the tree and prices both; the option's price, and the bond's through the pointer. */
extern "C" double quantlib_prices(size_t n, double step, double reversion, double volatility, const double *flows, size_t expiry,
                                  double strike, double *bond_price)
{
    HullWhite model(curve, reversion, volatility);
    const TimeGrid grid(n * step, n);
    const ext::shared_ptr<Lattice> lattice = model.tree(grid);
    CouponBond bond(flows, step);
    bond.initialize(lattice, grid.back());
    bond.rollback(0.0);
    *bond_price = bond.values()[0];
    auto underlying = ext::make_shared<CouponBond>(flows, step);
    underlying->initialize(lattice, grid.back());
    AmericanCall option(underlying, strike);
    option.initialize(lattice, grid[expiry]);
    option.rollback(0.0);
    return option.values()[0];
}
