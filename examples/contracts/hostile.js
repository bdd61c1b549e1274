// A contract that tries to take more than it may. Each function is one attempt.
let z = null;
let kept = null;
let till = null;

// what a trader gives, without what he wants; then the same by a withdrawal, and by a loss
const grab = (seat, args, data) => {
  const give = seat.getProposal().give;
  let told = [];
  try { z.atomicRearrange([[seat, till, give]]); } catch (e) { told = push(told, e); }
  try { z.withdrawFromSeat(seat, give); } catch (e) { told = push(told, e); }
  return told;
};

// one payment into a seat, twice
const depositTwice = (seat, args, data) => {
  z.depositToSeat(seat, { Coin: args.amount }, { Coin: args.payment });
  try { z.depositToSeat(seat, { Coin: args.amount }, { Coin: args.payment }); } catch (e) { return [e, seat.getCurrentAllocation()]; }
  return 'twice';
};

// what stays at home, within what is given and within what is thrown
const mintInside = (seat, args, data) => { return { a: [z.makeZCFMint('Fake', 'nat')] }; };
const seatInside = (seat, args, data) => { throw { why: 'mine', seat }; };

// refusals that are caught, without end
const insist = (seat, args, data) => {
  while (true) { try { z.withdrawFromSeat(seat, seat.getProposal().give); } catch (e) { } }
};

const inviteGrab = (data) => { return z.makeInvitation(grab, 'grab', null); };
const inviteDepositTwice = (data) => { return z.makeInvitation(depositTwice, 'deposit twice', null); };
const inviteMintInside = (data) => { return z.makeInvitation(mintInside, 'mint inside', null); };
const inviteSeatInside = (data) => { return z.makeInvitation(seatInside, 'seat inside', null); };
const inviteInsist = (data) => { return z.makeInvitation(insist, 'insist', null); };

// what services refuse to a send as they do to a party
const splitTwice = (data, issuer, payment, amount) => { E(issuer).split(payment, amount); return E(issuer).split(payment, amount); };
const mintByIssuer = (data, issuer, amount) => { return E(issuer).mintPayment(amount); };
const offerTwice = (data, zoe, invitation) => { E(zoe).offer(invitation); return E(zoe).offer(invitation); };
const onward = (data, other, zoe, invitation) => { E(other).take(zoe, invitation); return E(zoe).offer(invitation); };
const take = (data, zoe, invitation) => { return E(zoe).offer(invitation); };
const sendSeat = (data, facet) => { return E(facet).keep(till); };
const early = (data, facet, zoe) => { return E(E(facet).take(zoe, null)).never(); };

// what was handed over may be used, by whoever has it
const keep = (data, payment) => { kept = payment; return null; };
const gift = (data) => { return { payment: kept }; };
const use = (data, amount) => {
  const kit = z.makeEmptySeatKit(null);
  z.depositToSeat(kit.zcfSeat, { Coin: amount }, { Coin: kept });
  return kit.userSeat;
};
const empty = (data, purse, amount) => { return E(purse).withdraw(amount); };
const listen = (data, stranger, amount) => { return when(E(stranger).gift(), got, amount); };
const got = (amount, told) => { kept = told.value.payment; return use(null, amount); };

// a mint of its own, for a seat of another's
const gain = (data, seat) => {
  const mint = z.makeZCFMint('Own', 'nat');
  try { mint.mintGains({ Own: AmountMath.make(mint.getIssuerRecord().brand, 5n) }, seat); } catch (e) { return e; }
  return 'gained';
};

const start = (zcf, priv) => {
  z = zcf;
  till = zcf.makeEmptySeatKit(null).zcfSeat;
  return {
    publicFacet: Far('hostile', {
      grab: inviteGrab, depositTwice: inviteDepositTwice, mintInside: inviteMintInside, seatInside: inviteSeatInside,
      insist: inviteInsist, splitTwice: splitTwice, mintByIssuer: mintByIssuer, offerTwice: offerTwice, onward: onward,
      take: take, sendSeat: sendSeat, early: early, keep: keep, gift: gift, use: use, empty: empty, listen: listen,
      gain: gain,
    }, null),
  };
};
