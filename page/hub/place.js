// @ts-check
// Where a key may be sent from: a page that came over TLS, or from this very machine.

/** @param {{ protocol: string, hostname: string }} place as of `location` */
export function isSafePlace({ protocol, hostname }) {
  const isThisMachine = hostname === "localhost" || hostname === "[::1]" || /^127(\.\d{1,3}){3}$/.test(hostname);
  return protocol === "https:" || (protocol === "http:" && isThisMachine);
}
