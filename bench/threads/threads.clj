;; The same measurement in Clojure: clojure threads.clj SHAPE THREADS ACTS MILLIS WARM-UP
;; In each round each of so many threads makes so many acts. The warm-up takes so many milliseconds and does not count.
;; Prints `round NANOS ACTS TRIES` of each round after it; TRIES is how often a transaction's body was run.
(import '(java.util SplittableRandom) '(java.util.concurrent Callable Executors ExecutorService))

;; Each thread has a number of tries of its own, far enough from those of others.
(defmacro transaction [tries & body]
  `(dosync (aset ~tries 0 (inc (aget ~tries 0))) ~@body))

(defn any [^SplittableRandom dice n] (.nextInt dice (int n)))

(defn own [dice threads worker n] (+ worker (* threads (any dice (quot n threads)))))

(defn other [dice from n]
  (let [to (any dice (dec n))] (if (< to from) to (inc to))))

;; One act, as a function that is called once in each round.
(defn act [shape {:keys [refs tally atoms agents]} threads worker ^longs tries dice]
  (case shape
    "one-ref" (let [r (refs 0)] #(transaction tries (alter r + 1)))
    "tally" #(transaction tries (commute tally + 1))
    ("own-refs" "own-4096")
    (let [r (refs (own dice threads worker (count refs)))] #(transaction tries (alter r + 1)))
    ("transfers-64" "transfers-1000" "transfers-4096")
    (let [from (any dice (count refs)), to (other dice from (count refs)), a (refs from), b (refs to)]
      #(transaction tries (alter a - 1) (alter b + 1)))
    "reads" (let [r (refs (any dice (count refs)))]
              #(transaction tries (run! deref refs) (alter r + 1)))
    "one-atom" (let [a (atoms 0)] #(swap! a + 1))
    "own-atoms" (let [a (atoms (own dice threads worker (count atoms)))] #(swap! a + 1))
    "agents" (let [g (agents (any dice (count agents)))] #(send g + 1))
    "chains" (let [i (any dice (count agents)), g (agents i), next (agents (mod (inc i) (count agents)))]
               #(send g (fn [v] (send next + 1) (+ v 1))))))

(def sizes {"own-refs" 64, "own-4096" 4096, "transfers-64" 64, "transfers-1000" 1000, "transfers-4096" 4096, "reads" 100})

(defn world [shape]
  {:refs (vec (repeatedly (sizes shape 1) #(ref 0)))
   :tally (ref 0)
   :atoms (vec (repeatedly 64 #(atom 0)))
   :agents (vec (repeatedly 64 #(agent 0)))})

(defn run-all [^objects acts]
  (dotimes [i (alength acts)] ((aget acts i))))

(defn round [^ExecutorService pool workers agents tries]
  (doseq [^longs t tries] (aset t 0 0))
  (let [start (System/nanoTime)]
    (.invokeAll pool ^java.util.Collection workers)
    ;; an action may have sent on to an agent that was awaited before
    (when agents (apply await agents) (apply await agents))
    [(- (System/nanoTime) start) (reduce + (map #(aget ^longs % 0) tries))]))

;; The warm-up is at least of so many rounds: where others keep the processors busy, its seconds alone may be too few.
(def least-rounds 50)

(defn millis-since [start] (/ (- (System/nanoTime) start) 1e6))

(let [[shape & numbers] *command-line-args*
      [threads each millis warm-up] (map #(Long/parseLong %) numbers)
      world (world shape)
      agents (when (#{"agents" "chains"} shape) (:agents world))
      tries (vec (repeatedly threads #(long-array 32)))
      workers (vec (for [worker (range threads)]
                     (let [dice (SplittableRandom. worker)
                           make #(act shape world threads worker (tries worker) dice)
                           acts (object-array (repeatedly each make))]
                       ^Callable #(run-all acts))))
      pool (Executors/newFixedThreadPool threads)
      play #(round pool workers agents tries)]
  (set-agent-send-executor! (Executors/newFixedThreadPool 2))
  (let [start (System/nanoTime)]
    (loop [rounds 1]
      (play)
      (when (or (< rounds least-rounds) (< (millis-since start) warm-up)) (recur (inc rounds)))))
  (let [start (System/nanoTime)]
    (loop []
      (let [[nanos tried] (play)]
        (println "round" nanos (* threads each) tried)
        (when (< (millis-since start) millis) (recur)))))
  (flush)
  (System/exit 0))
