// Inputs to start from.

export const DEFAULTS = {
    mode: 'desk', curve: '', compounding: 'yearly', valuation: '', volatility: '70', reversion: '0.03', steps: '0',
        version: '1',
    coupon: '1.5', coupons: '1', maturity: '10Y', redemption: '100', right: 'callable', at: '100', days: '5Y..9Y',
    strikes: '96 98 99 100 101 102 104', job: '',
};

const EUR = '3M\t-0,25\n6M\t-0,15\n1Y\t0,10\n2Y\t0,60\n3Y\t1,00\n5Y\t1,60\n7Y\t2,10\n10Y\t2,50';
const FLAT = '1Y 3.0\n5Y 3.0\n10Y 3.0\n30Y 3.0';
const INVERTED = '3M 5.30\n1Y 4.90\n2Y 4.30\n5Y 3.70\n10Y 3.60\n30Y 3.80';
const NEGATIVE = '1Y -0.75\n2Y -0.70\n5Y -0.45\n10Y -0.05\n15Y 0.20';

export const EXAMPLES = [
    ['Callable note, EUR from \u22120.25 % to 2.5 %', { curve: EUR }],
    ['Puttable bond, flat 3 %', {
        curve: FLAT, coupon: '3', coupons: '2', maturity: '6Y', right: 'puttable', days: '1Y..5Y', volatility: '100',
        reversion: '0.1', steps: '2',
    }],
    ['Bond without a right, inverted curve',
        { curve: INVERTED, coupon: '4', maturity: '5Y', right: 'none', steps: '12' }],
    ['Callable bond, rates below zero', {
        curve: NEGATIVE, coupon: '0.5', maturity: '15Y', days: '3Y..14Y', volatility: '60', reversion: '0.05',
            steps: '4',
    }],
];
