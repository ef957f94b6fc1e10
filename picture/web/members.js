"use strict";
// Which ranks a communicator has, as ranks of `world` in the communicator's order.

const GATHERED = /\/t[0-9]+\(([0-9,]*)\)$/;

function nameIn(call) {
  return call.slice(0, call.lastIndexOf(" "));
}

// The members of `PARENT/K.COLOUR`, by the posts to call K of its parent. None where no such post is known.
function madeBy(posts, parent, colour) {
  const isMine = ({ words }) => Number(words[2]) === Number(colour), first = posts.find((post) => post.words[0] !== "split" || isMine(post));
  if (!first) return null;
  if (first.words[0] === "split") {
    const mine = posts.filter(isMine), place = (rank) => parent.indexOf(rank);
    return mine.sort((one, other) => Number(one.words[3]) - Number(other.words[3]) || place(one.rank) - place(other.rank)).map(({ rank }) => rank);
  }
  if (first.words[0] !== "create") return parent;
  const lists = posts.map(({ words }) => words[2].split(",").map(Number)).filter(([least]) => least === Number(colour));
  return lists.length ? lists[0].map((place) => parent[place]).filter((rank) => rank !== undefined) : null;
}

// Of a trace that tells no posts: who is seen to have posted there; and all of the parent's that aren't in a sibling, where every member prints
// that there are so many.
function seenIn(name, parent, seen, sizes) {
  const step = name.slice(name.lastIndexOf("/") + 1), before = name.slice(0, name.lastIndexOf("/"));
  const siblings = [...seen.keys()].filter((it) => it !== name && it.slice(0, it.lastIndexOf("/")) === before && it.slice(it.lastIndexOf("/") + 1).split(".")[0] === step.split(".")[0]);
  const others = new Set(siblings.flatMap((it) => [...seen.get(it)])), mine = seen.get(name) || new Set();
  const may = parent.filter((rank) => !others.has(rank) || mine.has(rank)), told = [...mine].filter((rank) => sizes.has(rank));
  return told.length && told.every((rank) => sizes.get(rank).has(may.length)) ? may : [...mine].sort((one, other) => one - other);
}

// Of each communicator that is named in the run, and of those from which it was made: its members.
function membersOf({ ranks, calls, posts, seen, sizes }) {
  const members = new Map([["world", numbers(ranks)]]);
  const find = (name) => {
    if (members.has(name)) return members.get(name);
    const place = name.lastIndexOf("/"), parent = name.slice(0, place), step = name.slice(place + 1), gathered = GATHERED.exec(name);
    const above = find(place < 0 ? "world" : parent), [call, colour] = step.split(".");
    const made = gathered ? gathered[1].split(",").filter(Boolean).map(Number) : madeBy(posts.get(`${parent} ${call}`) || [], above, colour);
    const found = made || (GATHERED.test(parent) ? above : seenIn(name, above, seen, sizes));
    members.set(name, found);
    return found;
  };
  calls.forEach((call) => find(nameIn(call)));
  return members;
}
