// A client in JavaScript, live over a pipe: `node pipe.js PROGRAM`, the program that `docs/SERVE.md` is about.
//
// Each answer goes to who asked first. The server is played by this file: it takes a push and answers a pull.
const { spawn } = require('node:child_process');
const { createInterface } = require('node:readline');
const { strictEqual } = require('node:assert');

const GROUP = '00000000-0000-4000-8000-000000000001';
const ANNA = '00000000-0000-4000-8000-00000000000a';
const RULES = { add: [['put', ['cat', 'todo/', ['arg', 'id']], ['arg', 'text']]] };

class Replicache {
  constructor(program) {
    this.pipe = spawn(program, { stdio: ['pipe', 'pipe', 'inherit'] });
    this.asked = [];
    createInterface({ input: this.pipe.stdout }).on('line', (line) => this.asked.shift()(line));
  }

  // What the line is answered, behind its number.
  async ask(line) {
    const answered = new Promise((done) => this.asked.push(done));
    this.pipe.stdin.write(line + '\n');
    const answer = (await answered).replace(/^\d+ /, '');
    if (answer.startsWith('fault ')) throw new Error(`${line}: ${answer}`);
    return answer;
  }

  async call(client, command) {
    return (await this.ask(`${client} ${command}`)).slice(client.length + 1);
  }

  close() {
    const ended = new Promise((done) => this.pipe.on('close', done));
    this.pipe.stdin.end();
    return ended;
  }
}

async function main(program) {
  const replicache = new Replicache(program);
  for (const line of [`group ${GROUP}`, `client anna ${ANNA}`, `rules ${JSON.stringify(RULES)}`, 'phase']) {
    strictEqual(await replicache.ask(line), 'ok');
  }
  const anna = async (command, wanted) => strictEqual(await replicache.call('anna', command), wanted);
  await anna('watch list todo/ - -', 'watching');
  await anna('mutate 1700000000000 add {"id":"x","text":"milk"}', 'id 1');
  await anna('poll list', 'new [["todo/x","milk"]]');
  const { mutations } = JSON.parse((await replicache.call('anna', 'push')).slice('push '.length));
  const { cookie } = JSON.parse((await replicache.call('anna', 'begin t')).slice('pull '.length));
  const lastMutationIDChanges = Object.fromEntries(mutations.map((m) => [m.clientID, m.id]));
  const patch = mutations.map((m) => ({ op: 'put', key: 'todo/' + m.args.id, value: m.args.text + '!' }));
  await anna(`end t ${JSON.stringify({ cookie: (cookie ?? 0) + 1, lastMutationIDChanges, patch })}`, 'applied');
  await anna('poll list', 'new [["todo/x","milk!"]]');
  await anna('pending', 'pending []');
  strictEqual(await replicache.close(), 0);
  console.log('pipe.js: as told');
}

main(process.argv[2]);
