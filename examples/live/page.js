'use strict';
const asked = new URLSearchParams(location.search);
const byId = (id) => document.getElementById(id);
const pause = (time) => new Promise((resolve) => setTimeout(resolve, time));
const about = {
  echo: 'The program puts the frames of your camera together, and sends each frame back. What is lost on the way is ' +
    'asked for again. Both pictures should show the same.',
  bridge: 'The program sends each packet on to the others in this room, under numbers of their own. Open this page ' +
    'in a second window. What is lost on the way is asked for again on each hop.',
};
const rows = [
  ['sent', 'frames of video and packets of audio that this browser sent'],
  ['arrived', 'packets of it that the program took'],
  ['lost', 'packets that the two hops lost on purpose'],
  ['asked', 'packets that the program asked for again'],
  ['repaired', 'of these, packets that then arrived'],
  ['units', 'frames that the program put together'],
  ['forwarded', 'packets of others that were sent on to this browser'],
  ['again', 'datagrams that were sent to this browser again'],
  ['received', 'frames and packets that this browser received'],
  ['decoded', 'frames that were decoded and shown'],
  ['dropped', 'frames that were not'],
];
let pc, peer, mode, camera, isOver = false;
let turn = Promise.resolve(); // texts are exchanged one after the other

async function post(path, value) {
  const who = peer === undefined ? '' : `?peer=${peer}`;
  const body = value === undefined ? '' : JSON.stringify(value);
  const said = await fetch(path.includes('?') ? path : path + who, {method: 'POST', body});
  if (!said.ok) throw new Error(`${path}: ${await said.text()}`);
  return said.json();
}

const inTurn = (step) => {
  turn = turn.then(step);
  return turn;
};

/** Asks for one codec of video, and its retransmissions. */
function prefer(transceiver) {
  const named = [`video/${byId('codec').value}`.toLowerCase(), 'video/rtx'];
  const codecs = RTCRtpReceiver.getCapabilities('video').codecs;
  transceiver.setCodecPreferences(codecs.filter((it) => named.includes(it.mimeType.toLowerCase())));
}

/** Asks for Opus with redundancy (RFC 2198), which is sent if it is the first. */
function preferRedundancy(transceiver) {
  const named = ['audio/red', 'audio/opus'];
  const codecs = RTCRtpReceiver.getCapabilities('audio').codecs;
  const place = (it) => named.indexOf(it.mimeType.toLowerCase());
  transceiver.setCodecPreferences(codecs.filter((it) => place(it) >= 0).sort((a, b) => place(a) - place(b)));
}

/** The local description with its candidates. Firefox says for a while that all are there as a new session begins. */
async function gathered() {
  const isDone = () => pc.iceGatheringState === 'complete' && pc.localDescription.sdp.includes('a=candidate');
  for (let tries = 0; tries < 150 && !isDone(); tries++) await pause(20);
  return {sdp: pc.localDescription.sdp};
}

async function take(type, {sdp, candidates}) {
  await counts();
  await pc.setRemoteDescription({type, sdp});
  for (const candidate of candidates) await pc.addIceCandidate({candidate, sdpMLineIndex: 0});
}

/** This browser offers, and the program answers. */
async function offer() {
  await counts();
  await pc.setLocalDescription(await pc.createOffer());
  await take('answer', await post('/offer', await gathered()));
}

/** The program offers, if it has something to offer, and this browser answers. */
async function pull() {
  const said = await post('/pull');
  if (!said.sdp) return;
  await take('offer', said);
  if (mode === 'echo') await useCamera();
  await pc.setLocalDescription(await pc.createAnswer());
  await post('/answer', await gathered());
}

/** Sends the camera in the sections that the program offered. */
async function useCamera() {
  for (const transceiver of pc.getTransceivers()) {
    const kind = transceiver.receiver.track.kind;
    transceiver.direction = 'sendrecv';
    await transceiver.sender.replaceTrack(camera.getTracks().find((track) => track.kind === kind));
    if (kind === 'video') prefer(transceiver);
  }
}

function add(track) {
  const transceiver = pc.addTransceiver(track, {direction: mode === 'echo' ? 'sendrecv' : 'sendonly'});
  if (track.kind === 'video') prefer(transceiver);
  if (track.kind === 'audio' && asked.has('red')) preferRedundancy(transceiver);
}

function show({track, transceiver}) {
  if (track.kind === 'audio') {
    const audio = new Audio();
    audio.srcObject = new MediaStream([track]);
    audio.muted = mode === 'echo';
    audio.play().catch(() => {});
    return;
  }
  const id = `video-${transceiver.mid}`;
  const figure = byId(id) ?? document.createElement('figure');
  figure.id = id;
  const video = document.createElement('video');
  Object.assign(video, {autoplay: true, muted: true, srcObject: new MediaStream([track])});
  const caption = document.createElement('figcaption');
  caption.textContent = mode === 'echo' ? 'What comes back' : 'Another browser';
  figure.replaceChildren(video, caption);
  track.onmute = () => { figure.hidden = true; };
  track.onunmute = () => { figure.hidden = false; };
  byId('videos').append(figure);
}

const counted = new Map(); // by statistic: its kind and name, what it counted before it began again, and counts now

function count(it, name, value = 0) {
  const key = `${it.id} ${name}`;
  const {before, now} = counted.get(key) ?? {before: 0, now: 0};
  counted.set(key, {kind: it.kind, name, before: value < now ? before + now : before, now: value});
}

/** What this browser counted, by kind. Firefox begins to count again after an offer, and forgets what was stopped. */
async function counts() {
  for (const it of (await pc.getStats()).values()) {
    const isVideo = it.kind === 'video';
    if (it.type === 'outbound-rtp') count(it, 'sent', isVideo ? it.framesSent : it.packetsSent);
    if (it.type === 'inbound-rtp') {
      count(it, 'received', isVideo ? it.framesReceived : it.packetsReceived);
      count(it, 'packets', it.packetsReceived);
      count(it, 'decoded', it.framesDecoded);
      count(it, 'dropped', it.framesDropped);
      count(it, 'asked', it.nackCount);
      count(it, 'keyFrames', it.keyFramesDecoded);
    }
  }
  const found = {audio: {}, video: {}};
  for (const {kind, name, before, now} of counted.values()) {
    found[kind][name] = (found[kind][name] ?? 0) + before + now;
  }
  return found;
}

function cells(words) {
  const row = document.createElement('tr');
  row.append(...words.map((word) => {
    const cell = document.createElement('td');
    cell.textContent = word ?? '';
    return cell;
  }));
  return row;
}

function showCounts(ours, program) {
  byId('agreed').textContent = `Agreed: ${program.agreed.join(', ')}. ${program.peers} in the room.`;
  byId('counts').replaceChildren(...rows.map(([name, meaning]) => {
    const of = (kind) => (['sent', 'received', 'decoded', 'dropped'].includes(name) ? ours : program)[kind][name];
    return cells([name, of('video'), of('audio'), meaning]);
  }));
}

/** What the buttons and the script of a test do. */
const actions = {
  hold: () => direct('inactive'),
  resume: () => direct(mode === 'echo' ? 'sendrecv' : 'sendonly'),
  stop: async () => {
    const isCamera = (it) => it.sender.track?.kind === 'video' && it.currentDirection !== 'stopped';
    pc.getTransceivers().find(isCamera)?.stop();
    await offer();
  },
  add: async () => {
    add(camera.getVideoTracks()[0]);
    await offer();
  },
  restart: async () => {
    pc.restartIce();
    await offer();
  },
  leave: async () => {
    isOver = true;
    for (const track of camera.getTracks()) track.stop();
    await pause(2000); // for what is under way
    await tell();
    await post('/leave');
    pc.close();
    byId('state').textContent = 'You have left.';
  },
};

async function direct(direction) {
  for (const transceiver of pc.getTransceivers()) {
    if (transceiver.sender.track && transceiver.direction !== 'stopped') transceiver.direction = direction;
  }
  await offer();
}

async function tell() {
  const program = await post('/state'); // first, since Firefox goes on sending silence
  const browser = await counts();
  showCounts(browser, program);
  await post('/result', {peer, browser, program});
}

/** Follows the program until the call is over: its offers, its counts, and a script's actions at their seconds. */
async function follow() {
  const script = (asked.get('script') ?? '').split(',').filter(Boolean).map((it) => it.split(':'));
  let isStopped = false;
  while (!isOver) {
    const program = await post('/state');
    showCounts(await counts(), program);
    if (program.wants) await inTurn(pull);
    while (script.length > 0 && program.elapsed > Number(script[0][0])) {
      await inTurn(actions[script.shift()[1]]);
    }
    if (isOver) return;
    if (program.phase !== 'run' && !isStopped) {
      isStopped = true;
      for (const track of camera.getTracks()) track.stop();
    }
    if (program.phase === 'tell') return tell();
    await pause(200);
  }
}

async function join() {
  byId('join').disabled = true;
  while (await post('/elapsed') < Number(asked.get('join') ?? 0)) await pause(100);
  const red = asked.has('red') ? '&red=1' : '';
  const joined = await post(`/join?codec=${byId('codec').value}&loss=${byId('loss').value}${red}`);
  ({peer, mode} = joined);
  byId('about').textContent = about[mode];
  camera = await navigator.mediaDevices.getUserMedia({audio: true, video: {width: 320, height: 240}});
  byId('own').srcObject = camera;
  pc = new RTCPeerConnection({bundlePolicy: 'max-bundle'});
  pc.ontrack = show;
  if (asked.get('offers') === 'end' && mode === 'echo') {
    await inTurn(pull);
  } else {
    for (const track of camera.getTracks()) add(track);
    await inTurn(offer);
  }
  while (pc.connectionState !== 'connected') {
    if (pc.connectionState === 'failed') throw new Error('the connection failed');
    await pause(20);
  }
  byId('state').textContent = 'Connected.';
  byId('actions').hidden = false;
  await follow();
}

function fail(fault) {
  byId('state').textContent = `${fault}`;
  post('/result', {peer, fault: `${fault}`}).catch(() => {});
}

byId('join').onclick = () => join().catch(fail);
for (const button of document.querySelectorAll('[data-do]')) {
  button.onclick = () => inTurn(actions[button.dataset.do]).catch(fail);
}
for (const id of ['codec', 'loss']) if (asked.has(id)) byId(id).value = asked.get(id);
if (asked.has('auto')) join().catch(fail);
