package main

import (
	"context"
	"crypto"
	"crypto/sha256"
	"crypto/tls"
	"crypto/x509"
	"errors"
	"fmt"
	"net"
	"strings"
	"sync"

	"github.com/pion/dtls/v2"
	"github.com/pion/dtls/v2/pkg/crypto/fingerprint"
	"github.com/pion/dtls/v2/pkg/crypto/selfsign"
	"github.com/pion/ice/v2"
	"github.com/pion/srtp/v2"

	"jilqamur"
)

// transport is pion's ICE, DTLS and SRTP over the loopback. Both its directions are impaired on purpose.
type transport struct {
	agent           *ice.Agent
	certificate     tls.Certificate
	conn            *ice.Conn
	inward, outward *hop
	lock            sync.Mutex
	early           [][]byte // what came before the keys
	in, out         *srtp.Context
	media, control  func([]byte)
}

// errNotConnected is why a datagram isn't sent before the keys are there.
var errNotConnected = errors.New("not connected yet")

// newTransport gathers only the candidates of the loopback.
func newTransport(inward, outward *hop) (*transport, error) {
	certificate, err := selfsign.GenerateSelfSigned()
	if err != nil {
		return nil, err
	}
	agent, err := ice.NewAgent(&ice.AgentConfig{
		NetworkTypes:     []ice.NetworkType{ice.NetworkTypeUDP4},
		CandidateTypes:   []ice.CandidateType{ice.CandidateTypeHost},
		MulticastDNSMode: ice.MulticastDNSModeDisabled,
		IPFilter:         net.IP.IsLoopback,
		IncludeLoopback:  true,
	})
	if err != nil {
		return nil, err
	}
	t := &transport{agent: agent, certificate: certificate, inward: inward, outward: outward}
	return t, t.gather()
}

// gather finds all candidates.
func (t *transport) gather() error {
	gathered := make(chan struct{})
	err := t.agent.OnCandidate(func(c ice.Candidate) {
		if c == nil {
			close(gathered)
		}
	})
	if err == nil {
		err = t.agent.GatherCandidates()
	}
	if err == nil {
		<-gathered
	}
	return err
}

// restart begins a new ICE session over the same keys.
func (t *transport) restart(to jilqamur.Remote) error {
	err := t.agent.Restart("", "")
	if err == nil {
		err = t.gather()
	}
	if err == nil {
		err = t.agent.SetRemoteCredentials(to.Ufrag, to.Password)
	}
	t.addCandidates(to)
	return err
}

// addCandidates tells the agent where the browser is.
func (t *transport) addCandidates(to jilqamur.Remote) {
	for _, text := range to.Candidates {
		candidate, err := ice.UnmarshalCandidate(strings.TrimPrefix(text, "candidate:"))
		if err == nil && candidate.NetworkType() == ice.NetworkTypeUDP4 {
			err = t.agent.AddRemoteCandidate(candidate)
		}
		if err != nil {
			fmt.Println("passed over:", text, err)
		}
	}
}

func (t *transport) close() {
	t.agent.Close()
}

// candidates are the candidates in the form of session texts.
func (t *transport) candidates() (texts []string, err error) {
	found, err := t.agent.GetLocalCandidates()
	for _, candidate := range found {
		texts = append(texts, "candidate:"+candidate.Marshal())
	}
	return texts, err
}

// described is the transport as a browser is told of it.
func (t *transport) described(setup jilqamur.Setup) (jilqamur.Transport, error) {
	ufrag, password, err := t.agent.GetLocalUserCredentials()
	digest := sha256.Sum256(t.certificate.Certificate[0])
	return jilqamur.Transport{Setup: setup, Ufrag: ufrag, Password: password, Digest: digest[:]}, err
}

// connect reaches the browser: ICE first, then the keys by DTLS. Media and control are handed on as they are decrypted.
func (t *transport) connect(offers bool, to jilqamur.Remote) error {
	t.addCandidates(to)
	join := t.agent.Accept
	if offers {
		join = t.agent.Dial
	}
	conn, err := join(context.Background(), to.Ufrag, to.Password)
	if err != nil {
		return err
	}
	t.conn = conn
	ours, theirs := net.Pipe()
	go t.read(theirs)
	go t.write(theirs)
	return t.agree(ours, to)
}

// read tells the datagrams apart by their first byte (RFC 7983). Records of a handshake that is over may wait for
// nobody, and must not hold media up.
func (t *transport) read(handshake net.Conn) {
	records := make(chan []byte, 64)
	go func() {
		for record := range records {
			handshake.Write(record)
		}
	}()
	buffer := make([]byte, 4096)
	for {
		n, err := t.conn.Read(buffer)
		if err != nil {
			close(records)
			handshake.Close()
			return
		}
		datagram := append([]byte{}, buffer[:n]...)
		switch {
		case n > 0 && datagram[0] >= 20 && datagram[0] < 64:
			select {
			case records <- datagram:
			default:
			}
		case n > 1 && datagram[0] >= 128 && datagram[0] < 192:
			t.inward.pass(datagram, t.take)
		}
	}
}

// write sends what the handshake says.
func (t *transport) write(handshake net.Conn) {
	buffer := make([]byte, 4096)
	for {
		n, err := handshake.Read(buffer)
		if err != nil {
			return
		}
		t.conn.Write(buffer[:n])
	}
}

// agree makes the handshake, tests the browser's certificate, and takes the keys.
func (t *transport) agree(conn net.Conn, to jilqamur.Remote) error {
	config := &dtls.Config{
		Certificates:           []tls.Certificate{t.certificate},
		SRTPProtectionProfiles: []dtls.SRTPProtectionProfile{dtls.SRTP_AES128_CM_HMAC_SHA1_80},
		ExtendedMasterSecret:   dtls.RequireExtendedMasterSecret,
		ClientAuth:             dtls.RequireAnyClientCert,
		InsecureSkipVerify:     true, // the fingerprint is tested instead
	}
	isClient := to.Setup.Value == jilqamur.Passive
	join := dtls.Server
	if isClient {
		join = dtls.Client
	}
	made, err := join(conn, config)
	if err != nil {
		return err
	}
	state := made.ConnectionState()
	if err := isOf(state.PeerCertificates, to.Fingerprint); err != nil {
		return err
	}
	keys := &srtp.Config{Profile: srtp.ProtectionProfileAes128CmHmacSha1_80}
	if err := keys.ExtractSessionKeysFromDTLS(&state, isClient); err != nil {
		return err
	}
	return t.start(keys)
}

// isOf tests a certificate by the fingerprint that the browser's text has.
func isOf(certificates [][]byte, print string) error {
	if len(certificates) == 0 {
		return errors.New("the browser shows no certificate")
	}
	certificate, err := x509.ParseCertificate(certificates[0])
	if err != nil {
		return err
	}
	found, err := fingerprint.Fingerprint(certificate, crypto.SHA256)
	if err == nil && !strings.EqualFold(print, "sha-256 "+found) {
		err = errors.New("the browser's certificate isn't that of its text")
	}
	return err
}

// start takes the keys, and what came before them.
func (t *transport) start(keys *srtp.Config) (err error) {
	t.lock.Lock()
	k := keys.Keys
	t.out, err = srtp.CreateContext(k.LocalMasterKey, k.LocalMasterSalt, keys.Profile)
	if err == nil {
		t.in, err = srtp.CreateContext(k.RemoteMasterKey, k.RemoteMasterSalt, keys.Profile)
	}
	early := t.early
	t.lock.Unlock()
	for _, datagram := range early {
		t.take(datagram)
	}
	return err
}

// take decrypts a datagram, of RTP or of RTCP by its second byte (RFC 5761 4), and hands it on.
func (t *transport) take(datagram []byte) {
	t.lock.Lock()
	if t.in == nil {
		t.early = append(t.early, datagram)
		t.lock.Unlock()
		return
	}
	isControl := datagram[1] >= 192 && datagram[1] < 224
	decrypt := func() ([]byte, error) { return t.in.DecryptRTP(nil, datagram, nil) }
	hand := t.media
	if isControl {
		decrypt = func() ([]byte, error) { return t.in.DecryptRTCP(nil, datagram, nil) }
		hand = t.control
	}
	plain, err := decrypt()
	t.lock.Unlock()
	if err == nil {
		hand(plain)
	}
}

// send encrypts a datagram of RTP or of RTCP, and sends it.
func (t *transport) send(datagram []byte, isControl bool) error {
	t.lock.Lock()
	defer t.lock.Unlock()
	if t.out == nil {
		return errNotConnected
	}
	encrypt := func() ([]byte, error) { return t.out.EncryptRTP(nil, datagram, nil) }
	if isControl {
		encrypt = func() ([]byte, error) { return t.out.EncryptRTCP(nil, datagram, nil) }
	}
	secret, err := encrypt()
	if err == nil {
		t.outward.pass(secret, func(datagram []byte) { t.conn.Write(datagram) })
	}
	return err
}
