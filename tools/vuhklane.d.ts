// What a contract's text may call, for editors that know TypeScript's declarations. A contract that begins with
//   /// <reference path="../../tools/vuhklane.d.ts" />
// (a comment for the host) has its built-in functions and AmountMath completed and checked. Parameters have no
// types, since a text has no comments but //; so the interfaces below are to be read. The program reads none of this.
type Brand = { readonly __brand: unique symbol }; type Issuer = { readonly __issuer: unique symbol };
type Payment = { readonly __payment: unique symbol }; type Promised<T> = { readonly __promised: T };
type Value = bigint | string[] | [string, bigint][]; type Amount = { brand: Brand; value: Value };
type Amounts = { [keyword: string]: Amount }; type Payments = { [keyword: string]: Payment };
type Exit = { onDemand: null } | { waived: null } | { afterDeadline: { deadline: bigint; timer: object } };
type Proposal = { give: Amounts; want: Amounts; exit: Exit };
type Handler = (seat: Seat, args: any, data: any) => any;
type Transfer = [from: Seat | null, to: Seat | null, fromAmounts?: Amounts, toAmounts?: Amounts];
interface Seat {
  getProposal(): Proposal; hasExited(): boolean; getCurrentAllocation(): Amounts; getStagedAllocation(): Amounts;
  /** The amount under the keyword; nothing of the brand where there is no slot. The brand has to be given. */
  getAmountAllocated(keyword: string, brand: Brand): Amount;
  isOfferSafe(amounts: Amounts): boolean; incrementBy(amounts: Amounts): Amounts; decrementBy(amounts: Amounts): Amounts;
  clear(): null; exit(): null; fail<T>(reason: T): T;
}
interface Mint { getIssuerRecord(): { brand: Brand; issuer: Issuer }; mintGains(amounts: Amounts, seat: Seat): Seat; burnLosses(amounts: Amounts, seat: Seat): null; }
interface ZCF {
  makeInvitation(handler: Handler, description: string, data?: any): Payment;
  makeEmptySeatKit(exit?: Exit | null): { userSeat: object; zcfSeat: Seat };
  /** All transfers are made, or none; each seat keeps all that it wants, or all that it gives, else NotOfferSafe. */
  atomicRearrange(transfers: Transfer[]): null; reallocate(...seats: Seat[]): null;
  depositToSeat(seat: Seat, amounts: Amounts, payments: Payments): null; withdrawFromSeat(seat: Seat, amounts: Amounts): Payments;
  makeZCFMint(keyword: string, kind?: 'nat' | 'set' | 'bag'): Mint; saveIssuer(issuer: Issuer, keyword: string): { brand: Brand; issuer: Issuer };
  assertUniqueKeyword(keyword: string): null; getTerms(): { issuers: { [k: string]: Issuer }; brands: { [k: string]: Brand }; [k: string]: any };
  getBrandForIssuer(issuer: Issuer): Brand; getIssuerForBrand(brand: Brand): Issuer; getAssetKind(brand: Brand): 'nat' | 'set' | 'bag';
  getInstance(): object; getZoeService(): object; getInvitationIssuer(): Issuer; stopAcceptingOffers(): null;
  shutdown(completion?: any): null; shutdownWithFailure(reason?: any): null;
  /** Calls f(data, time) in a turn of its own, once the timer has come to time. */
  wakeAt(timer: object, time: bigint, f: (data: any, time: bigint) => any, data?: any): null;
}
/** A send: a promise of the answer, in a later turn. A target that is a promise has to be settled by then, else `Pending`. */
declare function E(target: any): any;
declare function Far(name: string, methods: { [method: string]: (data: any, ...args: any[]) => any }, data?: any): object;
/** Calls f(data, { ok, value }) in a turn of its own, once the promise is settled. */
declare function when(promise: any, f: (data: any, told: { ok: boolean; value: any }) => any, data?: any): any;
declare function harden<T>(value: T): T; declare function keys(record: object): string[]; declare function len(value: string | any[] | object): bigint;
declare function push<T>(array: T[], value: T): T[]; declare function put<T>(arrayOrRecord: T, at: bigint | string, value: any): T;
declare const AmountMath: {
  make(brand: Brand, value: Value): Amount; makeEmpty(brand: Brand): Amount; makeEmptyFromAmount(a: Amount): Amount; isEmpty(a: Amount): boolean;
  coerce(brand: Brand, a: Amount): Amount; getValue(brand: Brand, a: Amount): Value; isGTE(a: Amount, b: Amount): boolean; isEqual(a: Amount, b: Amount): boolean;
  add(a: Amount, b: Amount): Amount; subtract(a: Amount, b: Amount): Amount; min(a: Amount, b: Amount): Amount; max(a: Amount, b: Amount): Amount;
};
