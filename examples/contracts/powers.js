// Shows calls of a contract that no other example makes, and what each of them refuses.
let z = null;
let mine = null;
let loop = null;

// what there is to know of the instance and of brands
const ask = (data, issuer, brand) => {
  return {
    instance: z.getInstance(), zoe: z.getZoeService(), invitations: z.getInvitationIssuer(), kind: z.getAssetKind(brand),
    brand: z.getBrandForIssuer(issuer), issuer: z.getIssuerForBrand(brand), free: z.assertUniqueKeyword('Other'), terms: z.getTerms(),
  };
};

// one more brand to deal in
const deal = (data, issuer) => { return z.saveIssuer(issuer, 'Other'); };

// what a seat has, and whether it would be safe
const sit = (seat, args, data) => {
  if (mine === null) { mine = seat; }
  const p = seat.getProposal();
  return {
    has: seat.getAmountAllocated('Coin', p.give.Coin.brand), none: seat.getAmountAllocated('Else', p.give.Coin.brand),
    safe: seat.isOfferSafe(p.give), bare: seat.isOfferSafe({}),
  };
};
const takeOut = (data, amount) => { return z.withdrawFromSeat(mine, { Coin: amount }); };

// a time that is past: the function is called at once, in a turn of its own
const wake = (data, timer, time, word) => { return z.wakeAt(timer, time, awake, word); };
const awake = (word, now) => { return { word, now }; };

// a promise that would follow itself
const follow = (data, timer) => { loop = when(E(timer).getCurrentTimestamp(), own, null); return null; };
const own = (data, told) => { return loop; };

const invite = (data) => { return z.makeInvitation(sit, 'sit', null); };
const stop = (data) => { return z.stopAcceptingOffers(); };
const end = (data, reason) => { return z.shutdownWithFailure(reason); };

const start = (zcf, priv) => {
  z = zcf;
  return {
    publicFacet: Far('powers', {
      ask: ask, deal: deal, takeOut: takeOut, wake: wake, follow: follow, invite: invite, stop: stop, end: end,
    }, null),
  };
};
