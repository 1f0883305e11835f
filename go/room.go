package twodfq

// The places of waiting requests. Each tenant has places of its own and shares the others: it may take as many shared
// places as it leaves free (dynamic thresholds: Choudhury and Hahne, 1998). So a tenant with few requests is never
// refused because of other tenants, and a flood leaves half of the shared places free.
type room struct {
	places   int // the whole room
	own      int // the places of each tenant
	shared   int // the places of all tenants together
	most     int // the limit of each tenant, where there is one; then own and shared do not count
	waiting  int // the requests that wait
	borrowed int // the requests in shared places
}

func newRoom(places, tenants, most int) room {
	own := 0
	if places >= tenants {
		own = places / (2 * tenants)
		if own < 1 {
			own = 1
		}
	}
	return room{places: places, own: own, shared: places - own*tenants, most: most}
}

// Why a tenant with this number of waiting requests may not have another one, if it may not.
func (r *room) refuses(waiting int) error {
	switch {
	case r.waiting >= r.places:
		return ErrTooManyWait
	case r.most > 0 && waiting >= r.most, r.most == 0 && !r.hasPlace(waiting):
		return ErrTenantFull
	default:
		return nil
	}
}

func (r *room) hasPlace(waiting int) bool {
	return waiting < r.own || waiting-r.own < r.shared-r.borrowed
}

// A tenant with this number of waiting requests has one more.
func (r *room) enter(waiting int) {
	r.waiting++
	if waiting >= r.own {
		r.borrowed++
	}
}

// A tenant with this number of waiting requests has one less.
func (r *room) leave(waiting int) {
	r.waiting--
	if waiting > r.own {
		r.borrowed--
	}
}
