// Workers, and what each is asked: the page says which tasks it wants now, and gets each answer once.

/**
 * `key` names a task and `worker` the one that does it; `name` and `words` are what that is asked. A reply has the answer, or
 * a fault; before it may come one with news, of which more can be done at the same time.
 * @typedef {{ key: string, worker: string, name: string, words: any }} Task
 */

/** A worker that answers tasks in turn. Once it failed, it answers each task by its fault. */
class TaskWorker {
  constructor(worker, compiled) {
    this.worker = worker;
    this.compiled = compiled;
    this.waiting = new Map();
    this.asked = 0;
    this.fault = null;
    worker.onmessage = ({ data }) => {
      const took = this.waiting.get(data.number);
      if (!took) return;
      if (data.news) took({ news: data.news });
      else {
        this.waiting.delete(data.number);
        took(data.fault ? { fault: data.fault, why: data.why } : { answer: data.answer });
      }
    };
    worker.onerror = (event) => this.fail(event.message || 'no worker');
  }

  fail(why) {
    this.fault = { fault: 'fault', why };
    for (const took of this.waiting.values()) took(this.fault);
    this.waiting.clear();
  }

  /** Asks a task, whose replies `took` takes. */
  ask(name, words, took) {
    const number = this.asked += 1;
    this.waiting.set(number, took);
    this.compiled.then((compiled) => {
      if (this.fault) this.fail(this.fault.why);
      else this.worker.postMessage({ number, task: name, words: { ...words, compiled } });
    }).catch((fault) => this.fail(fault.message));
  }

  stop() {
    this.fault = { fault: 'fault', why: 'stopped' };
    this.waiting.clear();
    this.worker.terminate();
  }
}

export class Runner {
  /**
   * `newWorker` starts a worker, `compiled` promises the module, and `replied` takes the key of a task and each reply.
   */
  constructor(newWorker, compiled, replied) {
    this.newWorker = newWorker;
    this.compiled = compiled;
    this.replied = replied;
    /** @type {Map<string, TaskWorker>} */
    this.workers = new Map();
    /** @type {Map<string, string>} The worker of each task that was asked and is wanted still. */
    this.asked = new Map();
  }

  /**
   * Asks what is wanted and was not asked yet, and ends each worker that nothing is wanted of, unless it is kept.
   * @param {Task[]} tasks
   * @param {string[]} kept
   */
  want(tasks, kept) {
    const keys = new Set(tasks.map(({ key }) => key)), names = new Set([...kept, ...tasks.map(({ worker }) => worker)]);
    for (const [name, worker] of this.workers) {
      if (names.has(name)) continue;
      this.workers.delete(name);
      worker.stop();
    }
    for (const [key, name] of this.asked) if (!keys.has(key) || !this.workers.has(name)) this.asked.delete(key);
    for (const task of tasks) if (!this.asked.has(task.key)) this.ask(task);
  }

  ask(task) {
    this.asked.set(task.key, task.worker);
    const worker = this.workers.get(task.worker) || new TaskWorker(this.newWorker(), this.compiled);
    this.workers.set(task.worker, worker);
    worker.ask(task.name, task.words, (reply) => {
      if (this.workers.get(task.worker) === worker) this.replied(task.key, reply);
    });
  }
}
