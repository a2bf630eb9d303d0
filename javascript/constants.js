// Kinds and sides, as the header names them.
export const DISCOUNT_FACTOR = 5;
export const YEARLY_RATE = 6;
export const YEARLY_YIELD = 9;
export const DISCOUNTS = 1;
export const STATE_PRICES = 2;
export const EUROPEAN_CALL = 1;
export const EUROPEAN_PUT = 2;
export const AMERICAN_CALL = 3;
export const AMERICAN_PUT = 4;
export const CALL = 1;
export const PUT = 2;
export const OPTION_OF_KIND = 8;
export const DATED_OPTION = 10;
