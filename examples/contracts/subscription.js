// Subscriptions. A subscriber pays in advance: what he gives under Fee lies in
// his seat, and the contract moves one fee of it to the merchant's seat for the
// month in which he subscribes, and one at the beginning of each further month.
// He cancels by his facet, or leaves his seat, and has back what is left in it;
// so has he where the rest doesn't cover a month, and after a shutdown.
let z = null;
let clock = null;
let fee = null;
let month = 0n;
let till = null;
let seats = [];
let most = 200n;

const isWaived = (seat) => {
  for (const k of keys(seat.getProposal().exit)) {
    if (k === 'waived') { return true; }
  }
  return false;
};

const covers = (seat) => {
  return AmountMath.isGTE(seat.getAmountAllocated('Fee', fee.brand), fee);
};

const pay = (seat) => { z.atomicRearrange([[seat, till, { Fee: fee }]]); return null; };

// One turn for each month, also where a tick passes several; but not where
// nobody subscribes. The next one is asked for first, whatever comes below.
const bill = (due, now) => {
  const next = len(seats) > 0n ? due + month : due + month * ((now - due) / month + 1n);
  z.wakeAt(clock, next, bill, next);
  let still = [];
  for (const seat of seats) {
    if (!seat.hasExited()) {
      if (covers(seat)) { pay(seat); still = push(still, seat); } else { seat.exit(); }
    }
  }
  seats = still;
  return len(still);
};

const cancel = (seat) => {
  if (seat.hasExited()) { throw 'it has ended'; }
  seat.exit();
  return 'cancelled';
};

const rest = (seat) => { return seat.getAmountAllocated('Fee', fee.brand); };

const subscribe = (seat, args, data) => {
  if (seat.hasExited()) { return 'left already'; }
  if (len(seat.getProposal().want) > 0n) { throw 'a subscription wants nothing'; }
  if (!covers(seat)) { throw { least: fee }; }
  if (len(seats) >= most) { throw 'no room before the next month'; }
  pay(seat);
  seats = push(seats, seat);
  return Far('subscription', { cancel: cancel, getRest: rest }, seat);
};

const invite = (data) => {
  if (till === null) { throw 'not open yet'; }
  return z.makeInvitation(subscribe, 'subscribe', null);
};

const collect = (data) => { return z.withdrawFromSeat(till, till.getCurrentAllocation()); };
const close = (data) => { z.shutdown('closed'); return 'closed'; };

// The merchant's offer: its seat takes the fees, its further data is the time
// at which the second month begins.
const open = (seat, second, data) => {
  if (!isWaived(seat)) { throw 'the contract alone may let the till go'; }
  z.wakeAt(clock, second, bill, second);
  till = seat;
  return Far('merchant', { collect: collect, close: close }, null);
};

const start = (zcf, priv) => {
  z = zcf;
  clock = priv.timer;
  const terms = zcf.getTerms();
  fee = terms.fee;
  month = terms.month;
  if (AmountMath.isEmpty(fee)) { throw 'a fee of nothing'; }
  if (month < 1n) { throw 'a month of nothing'; }
  return {
    creatorInvitation: zcf.makeInvitation(open, 'the till', null),
    publicFacet: Far('subscriptions', { subscribe: invite }, null),
  };
};
