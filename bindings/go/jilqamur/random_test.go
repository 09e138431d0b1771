package jilqamur

import (
	"fmt"
	"math/rand"
	"os"
	"reflect"
	"sort"
	"strconv"
	"sync"
	"testing"
	"time"
)

// maker makes arguments by their types: most are sound, and some are anything.
type maker struct {
	*rand.Rand
	datagrams [][]byte
	texts     []string
	batch     Batch
	calls     int
	panics    int
	last      string // what panicked last
}

func (m *maker) one(numbers ...uint64) uint64 { return numbers[m.Intn(len(numbers))] }

func (m *maker) text() string {
	if len(m.texts) > 0 && m.Intn(3) > 0 {
		text := m.texts[m.Intn(len(m.texts))]
		if m.Intn(3) == 0 && len(text) > 0 {
			at := m.Intn(len(text))
			text = text[:at] + []string{"", "\r\n", "a=mid:x\r\n", "\xff"}[m.Intn(4)] + text[at+1:]
		}
		return text
	}
	return []string{"", "v=0\r\n", "opus", "VP8", "H264", "x\xff", "sha-256", "abcd", "passwordpasswordpassword",
		"v=0\r\no=- 1 2 IN IP4 0.0.0.0\r\ns=-\r\nt=0 0\r\n"}[m.Intn(10)]
}

func (m *maker) bytes() []byte {
	if len(m.datagrams) > 0 && m.Intn(3) > 0 {
		datagram := append([]byte(nil), m.datagrams[m.Intn(len(m.datagrams))]...)
		if m.Intn(3) == 0 && len(datagram) > 0 {
			datagram[m.Intn(len(datagram))] ^= 1 << m.Intn(8)
		}
		return datagram
	}
	head := []string{"", "\x00\x00\x00\x01\x65", "\x10", "\x82\x49\x83\x42"}[m.Intn(4)]
	bytes := append([]byte(head), make([]byte, []int{0, 1, 12, 40, 1500, 5000}[m.Intn(6)])...)
	m.Read(bytes[len(head):])
	return bytes
}

func (m *maker) mid() string {
	return []string{"a", "v", "a", "v", "b", "", "a-b", "abcdefghij_123456", "\xff"}[m.Intn(9)]
}

func (m *maker) of(kind reflect.Type) reflect.Value {
	value := reflect.New(kind).Elem()
	switch kind {
	case reflect.TypeOf(Section{}):
		mid := m.mid()
		section := Section{Mid: mid, Direction: Direction(m.Intn(5)), SSRCs: m.of(reflect.TypeOf([]uint32{})).
			Interface().([]uint32)}
		if mid == "v" {
			section.Kind = Video
		}
		if m.Intn(4) == 0 {
			section.Repairs = []Repair{{uint32(m.Intn(8)), uint32(m.Intn(8))}}
		}
		return reflect.ValueOf(section)
	case reflect.TypeOf(StreamParams{}):
		return reflect.ValueOf(StreamParams{First: m.one(0, 100, 40000), MTU: int(m.one(1200, 30, 0)) - m.Intn(2),
			Limit: int(m.one(1400, 60, 0)), Distances: [][]byte{nil, {1, 3}, {9}}[m.Intn(3)]})
	case reflect.TypeOf(ReceiverParams{}):
		return reflect.ValueOf(ReceiverParams{HoldBack: m.Intn(6) - 1, Held: int(m.one(0, 4096, 16384, 5))})
	case reflect.TypeOf(&Batch{}):
		if m.Intn(4) > 0 {
			return reflect.ValueOf(&m.batch)
		}
		return value
	}
	switch kind.Kind() {
	case reflect.Bool:
		value.SetBool(m.Intn(2) == 0)
	case reflect.Int, reflect.Int8, reflect.Int64:
		value.SetInt([]int64{0, 1, 2, 3, -1, 1 << 40, 1200, 30, -1 << 63}[m.Intn(9)])
	case reflect.Uint, reflect.Uint8, reflect.Uint16, reflect.Uint32, reflect.Uint64:
		value.SetUint(m.one(0, 1, 2, 3, 111, 96, uint64(m.Intn(200)), 1<<62, m.Uint64()))
	case reflect.String:
		value.SetString([]func() string{m.text, m.mid}[m.Intn(2)]())
	case reflect.Slice:
		if kind.Elem().Kind() == reflect.Uint8 {
			value.SetBytes(m.bytes())
			break
		}
		for k := m.Intn(4); k > 0; k-- {
			value.Set(reflect.Append(value, m.of(kind.Elem())))
		}
	case reflect.Struct:
		for k := 0; k < kind.NumField(); k++ {
			if kind.Field(k).IsExported() && m.Intn(3) > 0 {
				value.Field(k).Set(m.of(kind.Field(k).Type))
			}
		}
	}
	return value
}

// keep keeps datagrams and texts for later calls.
func (m *maker) keep(told []reflect.Value) {
	for _, value := range told {
		switch value := value.Interface().(type) {
		case string:
			if len(value) > 40 {
				m.texts = append(m.texts, value)
			}
		case [][]byte:
			m.datagrams = append(m.datagrams, value...)
		case []byte:
			m.datagrams = append(m.datagrams, value)
		}
	}
	if len(m.datagrams) > 200 {
		m.datagrams = append([][]byte(nil), m.datagrams[len(m.datagrams)-100:]...)
	}
	if len(m.texts) > 20 {
		m.texts = append([]string(nil), m.texts[10:]...)
	}
}

// call calls a function; a panic is caught and counted.
func (m *maker) call(name string, function reflect.Value) (told []reflect.Value) {
	m.calls++
	defer func() {
		if why := recover(); why != nil {
			m.panics++
			m.last = fmt.Sprintf("%s: %v", name, why)
		}
	}()
	var given []reflect.Value
	kind := function.Type()
	for k := 0; k < kind.NumIn(); k++ {
		given = append(given, m.of(kind.In(k)))
	}
	if kind.IsVariadic() {
		told = function.CallSlice(given)
	} else {
		told = function.Call(given)
	}
	m.keep(told)
	return told
}

// pool are the values that goroutines share.
type pool struct {
	mutex  sync.Mutex
	values []any
}

func (p *pool) add(values ...any) {
	p.mutex.Lock()
	defer p.mutex.Unlock()
	p.values = append(p.values, values...)
	if len(p.values) > 60 {
		p.values = append([]any(nil), p.values[len(p.values)-40:]...)
	}
}

func (p *pool) one(m *maker) any {
	p.mutex.Lock()
	defer p.mutex.Unlock()
	return p.values[m.Intn(len(p.values))]
}

var functions = map[string]any{
	"NewEnd": NewEnd, "NewWindow": NewWindow, "NewForwarder": NewForwarder, "NewPacketizer": NewPacketizer,
	"NewPacketHistory": NewPacketHistory, "NewNackRequester": NewNackRequester,
	"NewDepacketizer": NewDepacketizer, "NewSender": NewSender, "NewReceiver": NewReceiver, "NewRow": NewRow,
	"ReadHeader": ReadHeader, "Header.Bytes": Header.Bytes, "Header.Payload": Header.Payload, "Widen": Widen,
	"ExtensionIDs.Read": ExtensionIDs.Read, "PacketInfoOf": PacketInfoOf, "FaultyLineOf": FaultyLineOf,
	"Error.Text": Error.Text, "Error.Name": Error.Name, "LineFault.String": LineFault.String,
}

// sharedPair adds two ends that agreed, a copy of one, and values that were never opened.
func (p *pool) sharedPair(t *testing.T) {
	a, b := agreed(t)
	copied := reflect.New(reflect.TypeOf(End{}))
	copied.Elem().Set(reflect.ValueOf(a).Elem())
	p.add(a, b, a, b, copied.Interface(), (*End)(nil), &End{}, (*Sender)(nil), &Receiver{})
}

func (p *pool) run(t *testing.T, m *maker, count int, limit time.Duration, names []string) {
	for end := time.Now().Add(limit); m.calls < count && time.Now().Before(end); {
		if m.Intn(500) == 0 {
			p.sharedPair(t)
		}
		if m.Intn(10) == 0 {
			name := names[m.Intn(len(names))]
			for _, value := range m.call(name, reflect.ValueOf(functions[name])) {
				if value.Kind() == reflect.Ptr && !value.IsNil() && value.Type() != reflect.TypeOf(&Refusal{}) {
					p.add(value.Interface())
				}
			}
			continue
		}
		of := reflect.ValueOf(p.one(m))
		k := m.Intn(of.NumMethod())
		name := of.Type().Method(k).Name
		if name == "Close" && m.Intn(10) > 0 {
			continue
		}
		m.call(of.Type().String()+"."+name, of.Method(k))
	}
}

func fromEnvironment(name string, otherwise int) int {
	if number, err := strconv.Atoi(os.Getenv(name)); err == nil {
		return number
	}
	return otherwise
}

// Calls of all kinds in random order, with arguments of all kinds, from several goroutines at the same values: each
// returns. JILQAMUR_CALLS says how many, JILQAMUR_SECONDS for how long at most, and JILQAMUR_SEED which ones.
func TestRandomCalls(t *testing.T) {
	const goroutines = 4
	calls, seed := fromEnvironment("JILQAMUR_CALLS", 20000), fromEnvironment("JILQAMUR_SEED", 1)
	limit := time.Duration(fromEnvironment("JILQAMUR_SECONDS", 60)) * time.Second
	var names []string
	for name := range functions {
		names = append(names, name)
	}
	sort.Strings(names)
	var shared pool
	shared.sharedPair(t)
	var group sync.WaitGroup
	makers := make([]*maker, goroutines)
	for k := range makers {
		makers[k] = &maker{Rand: rand.New(rand.NewSource(int64(seed*goroutines + k)))}
		group.Add(1)
		go func(m *maker) {
			defer group.Done()
			shared.run(t, m, calls/goroutines, limit, names)
		}(makers[k])
	}
	group.Wait()
	made := 0
	for _, m := range makers {
		made += m.calls
		if m.panics > 0 {
			t.Errorf("%d panics, the last one in %s", m.panics, m.last)
		}
	}
	fmt.Printf("%d calls from %d goroutines, seed %d\n", made, goroutines, seed)
}
