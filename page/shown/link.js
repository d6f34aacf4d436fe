// The state of the page as the part of its address behind the #.

// Browsers take longer addresses, and hand few of them on.
const MOST = 500_000;

// The link of a state, or null where it is too long for one.
export function linkOf(state) {
  if (Object.values(state).some((value) => value && value.length > MOST)) return null;
  const words = new URLSearchParams(Object.entries(state).filter(([, value]) => value)).toString();
  return words.length > MOST ? null : `#${words}`;
}

// The state of a link.
export function stateOf(hash) {
  return Object.fromEntries(new URLSearchParams(hash.slice(1)));
}
