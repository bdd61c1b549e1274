// A broker that buys gold at the price of a feed. The feed is another contract, so it is asked by a send, and
// what it answers comes in a later turn; then the timer is asked how late it is. In between the trader may
// leave, and the feed may have no price: each function sees to it that the seat is let go in any case.
let z = null;
let feed = null;
let timer = null;
let till = null;
let oldest = 10n;

const fund = (seat, args, data) => {
  z.atomicRearrange([[seat, till, seat.getProposal().give]]);
  seat.exit();
  return 'funded';
};

const sell = (seat, args, data) => {
  when(E(feed).quote(seat.getProposal().give.Gold), quoted, { seat });
  return 'asked';
};

const quoted = (data, told) => {
  if (data.seat.hasExited()) { return 'gone before the quote'; }
  if (!told.ok) { data.seat.fail({ noQuote: told.value }); return 'no quote'; }
  when(E(timer).getCurrentTimestamp(), dealt, { seat: data.seat, quote: told.value });
  return 'quoted';
};

const dealt = (data, told) => {
  const seat = data.seat;
  if (seat.hasExited()) { return 'gone before the deal'; }
  if (told.value - data.quote.at > oldest) { seat.fail('the price is too old'); return 'too old'; }
  try {
    z.atomicRearrange([
      [seat, till, seat.getProposal().give],
      [till, seat, { Money: data.quote.worth }],
    ]);
    seat.exit();
  } catch (e) {
    seat.fail(e);
    return e;
  }
  return 'dealt';
};

const invite = (data) => { return z.makeInvitation(sell, 'sell gold', null); };
const stock = (data) => { return till.getCurrentAllocation(); };

const start = (zcf, priv) => {
  z = zcf;
  feed = priv.feed;
  timer = priv.timer;
  till = zcf.makeEmptySeatKit(null).zcfSeat;
  return {
    creatorInvitation: zcf.makeInvitation(fund, 'fund the till', null),
    publicFacet: Far('broker', { makeSellInvitation: invite, getStock: stock }, null),
  };
};
