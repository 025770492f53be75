package main

// The lists of a store that are kept in memory: each has the entries for one key.

import ordered "container/list"

// keptLists keeps lists, each with the entries for one key, up to `most` octets: those that were asked for last. The mutex of its store guards it.
type keptLists struct {
	// The most octets, and the sum of keptList.size of what is kept.
	most, size int
	// A *keptList for each key, first the one that was asked for last, and its element by keptList.name and by each of keptList.digests.
	order    *ordered.List
	byName   map[digest]*ordered.Element
	byDigest map[string]*ordered.Element
}

// A keptList is what is kept for a key. `name` is the key's digest by SHA-256, and `digests` are all three, by which the database has the entries for
// the key. `size` is about how many octets of memory the list takes.
type keptList struct {
	name    digest
	digests [][]byte
	list    *list
	size    int
}

// About how many octets of memory the library takes for each octet of an entry's text, and how many a list without entries takes.
const (
	octetsEach   = 3
	octetsOfList = 2048
)

// newKeptLists returns an empty keptLists for lists with at most `most` octets together.
func newKeptLists(most int) *keptLists {
	return &keptLists{most: most, order: ordered.New(), byName: map[digest]*ordered.Element{}, byDigest: map[string]*ordered.Element{}}
}

// get returns the list that is kept for a key, by the key's digest by SHA-256, or nil. The list is then the one that was asked for last.
func (k *keptLists) get(name digest) *list {
	element, isKept := k.byName[name]
	if !isKept {
		return nil
	}
	k.order.MoveToFront(element)
	return element.Value.(*keptList).list
}

// add keeps the list of a key, unless it alone is too large, and says whether it does. One that was kept for the key is removed in either case.
// `name` is the key's digest by SHA-256, `digests` are all its digests from digestsOf, and `octets` is the size of its entries' texts. Lists that
// were not asked for in a long time are removed to make room.
func (k *keptLists) add(name digest, digests [][]byte, list *list, octets int) bool {
	if before, isKept := k.byName[name]; isKept {
		k.remove(before)
	}
	kept := &keptList{name, digests, list, octetsOfList + octetsEach*octets}
	if kept.size > k.most {
		return false
	}
	element := k.order.PushFront(kept)
	k.byName[name] = element
	for _, digest := range digests {
		k.byDigest[string(digest)] = element
	}
	k.size += kept.size
	for k.size > k.most {
		k.remove(k.order.Back())
	}
	return true
}

// drop removes the list of a key, if one is kept. `digest` is any of the key's digests from digestsOf, such as that which a changed entry has.
func (k *keptLists) drop(digest []byte) {
	if element, isKept := k.byDigest[string(digest)]; isKept {
		k.remove(element)
	}
}

// clear removes all lists.
func (k *keptLists) clear() {
	for k.order.Len() > 0 {
		k.remove(k.order.Back())
	}
}

// count returns the number of keys whose lists are kept, for the status line.
func (k *keptLists) count() int {
	return k.order.Len()
}

// remove removes a list, and closes its guard: the memory is freed once the questions that the guard was asked are closed.
func (k *keptLists) remove(element *ordered.Element) {
	kept := k.order.Remove(element).(*keptList)
	k.size -= kept.size
	delete(k.byName, kept.name)
	for _, digest := range kept.digests {
		delete(k.byDigest, string(digest))
	}
	kept.list.guard.Close()
}
