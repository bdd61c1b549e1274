// A price feed. Who has the creator's facet reports prices; anybody may ask what an amount comes to.
let brand = null;
let price = 0n;
let at = 0n;

// amount is what one unit is worth, now the time that the reporter says
const report = (data, amount, now) => { brand = amount.brand; price = amount.value; at = now; return null; };

const quote = (data, amount) => {
  if (brand === null) { throw 'no price yet'; }
  return { worth: AmountMath.make(brand, amount.value * price), at };
};

const start = (zcf, priv) => {
  return {
    creatorFacet: Far('reporter', { report: report }, null),
    publicFacet: Far('feed', { quote: quote }, null),
  };
};
