package main

import "time"

// kept is how long a datagram can be asked for again.
const kept = time.Second

// stored is a datagram that was sent, or a packet that arrived.
type stored[T any] struct {
	at    time.Time
	value T
}

// store keeps what has numbers for the last second.
type store[K comparable, T any] struct{ values map[K]stored[T] }

func newStore[K comparable, T any]() *store[K, T] { return &store[K, T]{map[K]stored[T]{}} }

func (s *store[K, T]) put(number K, value T, now time.Time) { s.values[number] = stored[T]{now, value} }

func (s *store[K, T]) get(number K, now time.Time) (value T, isThere bool) {
	found, isThere := s.values[number]
	return found.value, isThere && now.Sub(found.at) <= kept
}

// sweep forgets what is older than a second.
func (s *store[K, T]) sweep(now time.Time) {
	for number, it := range s.values {
		if now.Sub(it.at) > kept {
			delete(s.values, number)
		}
	}
}
