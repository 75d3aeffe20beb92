// Words of the page, in plain ones, with the kernel's names.

// what the next step of a call does, by the phase that it is in (docs/MACHINE.md has each operation's)
const PHASES = {
  start: "takes the file's lock, or looks for the mapping",
  look: "looks whether the page is mapped, and translated already",
  want: "takes the slot of its index",
  locked: "looks whether the index is in the file, and has a page",
  missing: "begins a change of the reserve map",
  changed: "takes a frame, or counts what it reserves",
  abort: "gives its change up",
  taken: "commits its change: the index enters the reserve map",
  settle: "takes back from the counts what was counted twice",
  committed: "makes its frame the page of the index",
  restore: "gives its frame back, and the reservation with it",
  found: "translates the page, and reads or writes its word",
  leave: "releases what it holds, and ends",
  room: "looks for room among the task's addresses",
  accounted: "commits its change: the range enters the reserve map",
  enter: "enters the mapping",
  head: "goes on to an index",
  unslot: "leaves the slot of the index",
  extend: "makes the file as long as its range",
  unmap: "clears a task's translation of the index",
  evict: "takes the page from the file, into its hand",
  delete: "takes the index out of the reserve map",
  free: "frees its frame",
  size: "sets the file's new size",
  tail: "takes the indices behind the new size out of the reserve map",
  clear: "clears the translations of a mapping",
  drop: "removes the mapping",
};

// each word, what it means, and the kernel's name
const TERMS = [
  ["frame", "a huge page of memory: free, in the hand of a call, or the page of an index of a file", "folio"],
  ["resv, the reserve count", "how many free frames are promised to reservations", "resv_huge_pages, HugePages_Rsvd"],
  ["no page", "how many indices are reserved and have no page yet", "the reserve map less the page cache"],
  ["owed", "by how much calls that aren't finished have the reserve count differ: resv less no page. It is 0 when no call is in flight", ""],
  ["deny", "a step whose allocation of memory fails, as if the kernel had none; a step that wants no memory is like any other", "a failed kmalloc or folio"],
  ["kill", "the task gets a signal that ends it; its call notices where the kernel looks for one", "fatal_signal_pending"],
  ["lock of a file", "what a call holds that maps, fills, punches or truncates", "inode->i_rwsem"],
  ["slot of an index", "what a touch holds, and whoever adds or removes the page: one table for all files", "hugetlb_fault_mutex_table"],
  ["region, change, spare", "ranges of a reserve map; changes that are begun and not finished; memory prepared for them", "file_region, adds_in_progress, region_cache"],
  ["used, quota", "pages that a mount has, reserved ones too, and how many it may have", "used_hpages, max_hpages"],
  ["audit", "a check of the whole state by another function; it finds nothing, which is proved", ""],
];

/** What a word of the counts means; nothing of one that has no term. */
const meaningOf = (word) => TERMS.find(([term]) => term.split(", ").includes(word))?.[1] ?? "";

const definition = (word, meaning, kernel) => [
  element("dt", { textContent: word }),
  element("dd", {}, meaning, ...(kernel ? [" (", element("code", { textContent: kernel }), ")"] : [])),
];

function showGlossary() {
  $("terms").append(...TERMS.flatMap((it) => definition(...it)));
  $("phases").append(...Object.entries(PHASES).flatMap(([word, meaning]) => definition(word, meaning, data.linux[word])));
}
