"use strict";
// Sets of ranks: whole numbers with a bit for each rank.

function numbers(count) {
  return Array.from({ length: count }, (_, number) => number);
}

function bit(rank) {
  return 1n << BigInt(rank);
}

function setOf(ranks) {
  return ranks.reduce((set, rank) => set | bit(rank), 0n);
}

// The ranks of a set, in their order. Two numbers of 32 bits are quicker than one of 64.
function listed(set) {
  const low = Number(set & 0xffffffffn), high = Number(set >> 32n), ranks = [];
  for (let rank = 0; rank < 64; rank++) if (((rank < 32 ? low >>> rank : high >>> (rank - 32)) & 1) === 1) ranks.push(rank);
  return ranks;
}
