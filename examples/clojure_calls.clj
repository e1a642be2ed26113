;; The rows of docs/CLOJURE.md, for clojure_rows.clj.
(import '(java.util.concurrent CyclicBarrier Executor Executors RejectedExecutionException))

;; ---- what rows are made of

;; Another thread does this to its end, in no transaction.
(defmacro elsewhere [& body]
  `(outcome (start (fn [] ~@body))))

;; The same, but only the first time: `times` counts how often this was reached.
(defmacro meanwhile [times & body]
  `(when (= 1 (swap! ~times inc)) (elsewhere ~@body)))

(defn until [f]
  (when-not (f) (Thread/sleep 1) (recur f)))

(defn boom [& _] (throw (Exception. "boom")))

;; An agent that boom has failed, with these options.
(defn failed-agent [value & options]
  (let [g (apply agent value options)]
    (send g boom)
    (until #(agent-error g))
    g))

;; Why it is failed.
(defn failure [g] (.getMessage ^Throwable (agent-error g)))

;; How many actions are in its queue.
(defn waiting [g] (.getQueueCount ^clojure.lang.Agent g))

;; A watch that adds its key, the old value and the new one.
(defn noting [seen] (fn [k _ old new] (swap! seen conj [k old new])))

(def invalid "Invalid reference state")

;; ---- refs

(row "(ref v), :validator"
  @(ref 7) => 7
  (fault (ref 0 :validator pos?)) => invalid
  (let [r (ref 1 :validator pos?)] [(fault (dosync (ref-set r 0))) @r]) => [invalid 1])

(row "(ref v) inside dosync"
  (dosync (let [r (ref 0)] (alter r inc) @r)) => 1
  ;; Also one that was made after the transaction began.
  (dosync (let [r (elsewhere (ref 5))] (alter r inc))) => 6)

(row "(dosync ..)"
  ;; Each try reads until another commit comes between.
  (let [r (ref 0 :max-history 0), tries (atom 0), ended (atom false)]
    (start #(while (not @ended) (dosync (alter r inc)) (Thread/yield)))
    [(fault (dosync (swap! tries inc) (while true @r (Thread/yield)))) @tries (reset! ended true)])
  => ["Transaction failed after reaching retry limit" 10000 true]
  ;; Who changed a ref holds it until the commit, and a younger transaction doesn't get it.
  (let [r (ref 0), tries (atom 0)]
    (dosync
      (alter r inc)
      (let [younger (start #(dosync (swap! tries inc) (alter r inc)))]
        (until #(< 1 @tries))
        (realized? younger))))
  => false
  ;; An older transaction takes it, and the younger one is tried again.
  (let [r (ref 0), tries (atom 0), held (promise), taken (promise)]
    (let [younger (promise)]
      (dosync
        (when-not (realized? held)
          (deliver younger (start #(dosync (swap! tries inc) (let [v (alter r inc)] (deliver held true) @taken v))))
          @held
          (Thread/sleep 50))
        (alter r + 10))
      (let [before @r] (deliver taken true) [before (outcome @younger) @r @tries])))
  => [10 11 11 2])

(row "(dosync ..), by its steps"
  ;; It is tried again by itself.
  (let [r (ref 0), tries (atom 0)]
    [(dosync (meanwhile tries (dosync (ref-set r 5))) (alter r inc)) @tries])
  => [6 2])

(row "a dosync inside another one"
  ;; What the inner one did is seen outside only after the outer one, and is gone if the outer one fails.
  (let [r (ref 0)] [(dosync (dosync (alter r inc)) [@r (elsewhere @r)]) @r]) => [[1 0] 1]
  (let [r (ref 0)] [(fault (dosync (dosync (alter r inc)) (boom))) @r]) => ["boom" 0]
  ;; What the inner one did before it failed stays, if the outer one goes on.
  (let [r (ref 0)] [(dosync (fault (dosync (alter r inc) (boom)))) @r]) => ["boom" 1]
  ;; One commit, so one notice.
  (let [r (ref 0), seen (atom [])]
    (add-watch r :w (noting seen))
    (dosync (dosync (alter r inc)) (dosync (alter r inc)))
    @seen)
  => [[:w 0 2]])

(row "(dosync [@a @b]), which reads several refs as of one point"
  (let [a (ref 0), b (ref 0), tries (atom 0)]
    [(dosync [@a (do (meanwhile tries (dosync (ref-set a 1) (ref-set b 1))) @b)]) @tries])
  => [[1 1] 2]
  (let [a (ref 0), b (ref 0 :min-history 1), tries (atom 0)]
    [(dosync [@a (do (meanwhile tries (dosync (ref-set a 1) (ref-set b 1))) @b)]) @tries])
  => [[0 0] 1]
  ;; Without dosync.
  (let [a (ref 0), b (ref 0)]
    [@a (do (elsewhere (dosync (ref-set a 1) (ref-set b 1))) @b)])
  => [0 1])

(row "(swap! a f ..) inside dosync"
  (let [a (atom 0)] (dosync (swap! a inc) (elsewhere @a))) => 1
  (let [a (atom 0)] [(fault (dosync (swap! a inc) (boom))) @a]) => ["boom" 1]
  (let [r (ref 0), a (atom 0), tries (atom 0)]
    (dosync (swap! a inc) (meanwhile tries (dosync (alter r inc))) (alter r inc))
    [@a @r])
  => [2 2])

(row "@a of an atom or an agent inside dosync"
  (let [r (ref 0), a (atom 0), g (agent 0), tries (atom 0)]
    [(dosync @r
       (let [before [@a @g]]
         (meanwhile tries (reset! a 5) (send g + 7) (await g))
         (alter r inc)
         [before [@a @g]]))
     @tries])
  => [[[0 0] [5 7]] 1])

(row "(deref r), @r in a transaction"
  (let [r (ref 0)] (dosync (alter r inc) @r)) => 1
  (let [r (ref 0 :min-history 1), tries (atom 0)]
    [(dosync (meanwhile tries (dosync (ref-set r 5))) @r) @tries])
  => [0 1]
  ;; A read fault: there is no older value, so the transaction is tried again, and the ref has one more from then on.
  (let [r (ref 0), tries (atom 0)]
    [(dosync (meanwhile tries (dosync (ref-set r 5))) @r) @tries (ref-history-count r)
     (do (dosync (ref-set r 6)) (ref-history-count r))])
  => [5 2 0 1])

(row "@r outside"
  (let [r (ref 0)] [(dosync (ref-set r 1) (elsewhere @r)) @r]) => [0 1])

(row "(ref-set r v)"
  (let [r (ref 0)] [(dosync (ref-set r 5)) @r]) => [5 5]
  (fault (ref-set (ref 0) 5)) => "No transaction running")

(row "(alter r f ..)"
  (let [r (ref 10)] [(dosync (alter r - 1 2)) @r]) => [7 7])

(row "(alter r f ..), with any other function than Core's"
  (let [r (ref 3)] [(dosync (alter r (fn [v] (* v v)))) @r]) => [9 9]
  ;; In conflict, it computes again.
  (let [r (ref 3), tries (atom 0)]
    [(dosync (alter r (fn [v] (meanwhile tries (dosync (ref-set r 5))) (* v v)))) @r]) => [25 25])

(row "(commute r f ..)"
  ;; The latest value, though the transaction has read an older one.
  (let [r (ref 0 :min-history 1), times (atom 0)]
    [(dosync [@r (do (meanwhile times (dosync (ref-set r 10))) (commute r inc)) @r]) @r @times])
  => [[0 11 11] 11 1]
  ;; Called again at the commit.
  (let [r (ref 0), seen (atom []), times (atom 0)
        noted (fn [v] (swap! seen conj v) (inc v))]
    [(dosync (let [v (commute r noted)] (meanwhile times (dosync (ref-set r 10))) v)) @r @seen @times])
  => [1 11 [0 10] 1]
  ;; Not called again if the ref was set or altered.
  (let [r (ref 0), seen (atom [])
        noted (fn [v] (swap! seen conj v) (+ v 10))]
    [(dosync (alter r inc) (commute r noted)) @r @seen])
  => [11 11 [1]]
  (let [r (ref 0)] [(dosync (ensure r) (commute r inc)) @r]) => [1 1])

(row "ref-set or alter after commute"
  (let [r (ref 0)] [(fault (dosync (commute r inc) (alter r inc))) @r]) => ["Can't set after commute" 0]
  (let [r (ref 0)] [(fault (dosync (commute r inc) (ref-set r 5))) @r]) => ["Can't set after commute" 0]
  ;; Also if it was set before the commute.
  (let [r (ref 0)] [(fault (dosync (ref-set r 5) (commute r inc) (ref-set r 7))) @r]) => ["Can't set after commute" 0])

(row "(ensure r)"
  (let [r (ref 0)] (dosync (alter r inc) (ensure r))) => 1
  ;; Who wants to change it waits 0.1 s, is tried again, and gets it when the other one has ended.
  (let [r (ref 0), tries (atom []), ensured (promise), ended (promise)]
    (start #(dosync (ensure r) (deliver ensured true) @ended))
    @ensured
    (let [writer (start #(dosync (swap! tries conj (System/nanoTime)) (alter r inc)))]
      (until #(< 1 (count @tries)))
      (let [before @r, [t u] @tries]
        (deliver ended true)
        [before (<= 0.1e9 (- u t)) (outcome writer) @r])))
  => [0 true 1 1]
  ;; Changed before: the one that ensures is tried again.
  (let [r (ref 0), tries (atom 0)]
    [(dosync (meanwhile tries (dosync (ref-set r 5))) (ensure r)) @tries])
  => [5 2]
  ;; Without it two transactions that each read what the other one writes both commit.
  (let [a (ref 0), b (ref 0), times (atom 0)]
    (dosync (let [v @b] (meanwhile times (dosync (when (= 0 @a) (ref-set b 1)))) (when (= 0 v) (ref-set a 1))))
    [@a @b @times])
  => [1 1 1])

(row "a transaction that is tried again"
  ;; It was changed, and changed back.
  (let [r (ref 0), tries (atom 0)]
    [(dosync (meanwhile tries (dosync (ref-set r 5)) (dosync (ref-set r 0))) (alter r inc)) @tries])
  => [1 2]
  ;; The try ends at the call that finds the conflict.
  (let [r (ref 0), tries (atom 0), ended (atom 0)]
    (dosync (meanwhile tries (dosync (ref-set r 5))) (alter r inc) (swap! ended inc))
    [@tries @ended])
  => [2 1])

(row "a validator that returns false or throws"
  (let [r (ref 1 :validator pos?), tries (atom 0)]
    [(fault (dosync (swap! tries inc) (alter r - 5))) @r @tries])
  => [invalid 1 1]
  (let [r (ref 1 :validator #(or (pos? %) (throw (RuntimeException. "boom")))), tries (atom 0)]
    [(fault (dosync (swap! tries inc) (alter r - 5))) @r @tries])
  => ["boom" 1 1]
  ;; It is asked at the commit alone.
  (let [r (ref 1 :validator pos?)] (dosync (alter r - 5) (alter r + 6))) => 2)

(row "when a validator is asked"
  ;; Not about a value in between, and only at the commit.
  (let [r (ref 1 :validator pos?)] [(dosync (ref-set r -1) (alter r + 3)) @r]) => [2 2]
  (let [r (ref 1 :validator pos?), came (atom false)]
    [(fault (dosync (ref-set r -1) (reset! came true))) @came @r])
  => [invalid true 1]
  ;; Of a ref that is only commuted, about the latest value.
  (let [r (ref 1 :validator pos?), times (atom 0)]
    [(fault (dosync (commute r (fn [v] (meanwhile times (dosync (ref-set r 10))) (- v 5))))) @r])
  => [nil 5]
  ;; A ref that isn't changed isn't asked.
  (let [asked (atom 0), r (ref 1 :validator (fn [_] (swap! asked inc) true)), s (ref 0)]
    (reset! asked 0)
    [(dosync (ensure r) (alter s inc)) @asked])
  => [1 0])

(row "an exception in the body"
  (let [r (ref 0), g (agent 0)]
    [(fault (dosync (alter r inc) (commute r inc) (send g inc) (boom))) @r (do (await g) @g)])
  => ["boom" 0 0])

(row "(send a f ..) in a transaction"
  ;; Held until the commit; once, however often the body is run.
  (let [r (ref 0), g (agent 0), tries (atom 0)]
    [(dosync (send g inc) (meanwhile tries (dosync (alter r inc))) (alter r inc) (elsewhere (await g) @g)) @tries (do (await g) @g)])
  => [0 2 1]
  ;; Watches come first.
  (let [r (ref 0), g (agent 0), seen (promise)]
    (add-watch r :w (fn [& _] (deliver seen (elsewhere (await g) @g))))
    (dosync (alter r inc) (send g inc))
    [@seen (do (await g) @g)])
  => [0 1]
  (let [r (ref 0), g (failed-agent 0)]
    [(fault (dosync (alter r inc) (send g inc))) @r])
  => ["Agent is failed, needs restart" 0])

;; ---- atoms

(row "(atom v), :validator"
  @(atom 7) => 7
  (fault (atom 0 :validator pos?)) => invalid
  (let [a (atom 1 :validator pos?)] [(fault (swap! a dec)) (fault (reset! a 0)) @a]) => [invalid invalid 1])

(row "(swap-vals! a f ..), (swap! a f ..)"
  (let [a (atom 10)] [(swap-vals! a - 1 2) (swap! a + 5)]) => [[10 7] 12]
  (let [a (atom 0), calls (atom 0)]
    [(swap-vals! a (fn [v] (meanwhile calls (reset! a 10)) (inc v))) @calls])
  => [[10 11] 2]
  (let [a (atom 0)] [(fault (swap! a boom)) @a]) => ["boom" 0])

(row "(reset-vals! a v), (reset! a v)"
  (let [a (atom 10)] [(reset-vals! a 7) (reset! a 5)]) => [[10 7] 5])

(row "(compare-and-set! a old new)"
  (let [a (atom 0)] [(compare-and-set! a 1 5) @a (compare-and-set! a 0 5) @a]) => [false 0 true 5]
  ;; Equal, and the same object.
  (map #(compare-and-set! (atom %1) %2 :new)
       [nil true :a -128 127] [nil (= 1 1) (keyword "a") (- -127 1) (+ 126 1)])
  => [true true true true true]
  ;; Equal, but another object.
  (map #(compare-and-set! (atom %1) %2 :new)
       [-129 128 "ab" 'a [1] {:a 1} #{1}] [(- -128 1) (+ 127 1) (str "a" "b") (symbol "a") (vec '(1)) (assoc {} :a 1) (conj #{} 1)])
  => [false false false false false false false]
  (let [a (atom [1])] (compare-and-set! a @a [2])) => true
  ;; The validator is asked first.
  (let [a (atom 1 :validator pos?)] [(fault (compare-and-set! a 5 0)) @a]) => [invalid 1])

;; ---- agents

(row "(agent v), :validator, :error-mode"
  @(agent 7) => 7
  (fault (agent 0 :validator pos?)) => invalid
  (map error-mode [(agent 0) (agent 0 :error-handler boom) (agent 0 :error-mode :continue)
                   (agent 0 :error-handler boom :error-mode :fail)])
  => [:fail :continue :continue :fail])

(row "(send a f ..)"
  (let [g (agent [])]
    (dotimes [i 5] (send g conj i))
    (await g)
    @g)
  => [0 1 2 3 4]
  (let [g (agent 10)] (send g - 1 2) (await g) @g) => 7
  (let [g (failed-agent 0)] [(fault (send g inc)) (waiting g) @g]) => ["Agent is failed, needs restart" 0 0])

(row "(send a f ..) inside an action"
  ;; Held until the action has ended, with its watches.
  (let [g (agent 0), h (agent 0), seen (atom [])
        note #(swap! seen conj (elsewhere (await h) @h))]
    (add-watch g :w (fn [& _] (note)))
    (send g (fn [v] (send h inc) (note) (inc v)))
    (await g)
    (await h)
    [(take 2 @seen) @h])
  => [[0 0] 1]
  ;; Lost if the action fails, or a watch does.
  (let [g (agent 0), h (agent 0)]
    (send g (fn [_] (send h inc) (boom)))
    (until #(agent-error g))
    (await h)
    @h)
  => 0
  (let [g (agent 0), h (agent 0)]
    (add-watch g :w boom)
    (send g (fn [v] (send h inc) (inc v)))
    (until #(agent-error g))
    (await h)
    @h)
  => 0)

(row "a thread of the pool"
  (let [g (agent nil)]
    (send g (fn [_] (re-find #"[a-z-]+" (.getName (Thread/currentThread)))))
    (await g)
    @g)
  => "clojure-agent-send-pool-"
  ;; One action of an agent at a time, as many agents at a time as there are threads.
  (let [g (agent 0), h (agent 0), both (CyclicBarrier. 2)
        meet (fn [v] (.await both) (inc v))]
    (send g meet)
    (send h meet)
    (await g h)
    [@g @h])
  => [1 1])

(row "the pool, on one thread"
  ;; By an executor that runs what it is given.
  (let [g (agent 0), here (reify Executor (execute [_ action] (.run action)))]
    (send-via here g inc)
    @g)
  => 1)

(row "an action that throws"
  (let [g (agent 1)]
    (send g boom)
    (until #(agent-error g))
    [@g (waiting g)])
  => [1 0]
  (let [g (agent 1 :error-mode :continue)]
    (send g boom)
    (send g inc)
    (await g)
    [@g (agent-error g)])
  => [2 nil]
  ;; What waits stays, until a restart.
  (let [g (agent 1), both-sent (promise)]
    (send g (fn [_] @both-sent (boom)))
    (send g inc)
    (deliver both-sent true)
    (until #(agent-error g))
    [@g (waiting g)])
  => [1 1])

(row "(agent-error a)"
  (agent-error (agent 0)) => nil
  (failure (failed-agent 0)) => "boom"
  (let [g (agent 1 :validator pos?)]
    (send g dec)
    (until #(agent-error g))
    [@g (failure g)])
  => [1 invalid])

(row "(restart-agent a v :clear-actions true)"
  (fault (restart-agent (agent 0) 5)) => "Agent does not need a restart"
  ;; What waits is run with the new state, or is dropped.
  (for [options [[] [:clear-actions true]]]
    (let [g (agent 1), both-sent (promise), seen (atom [])]
      (send g (fn [_] @both-sent (boom)))
      (send g inc)
      (deliver both-sent true)
      (until #(agent-error g))
      (add-watch g :w (noting seen))
      (let [answer (apply restart-agent g 5 options)]
        (await g)
        ;; The action of await is one too, and leaves the state.
        [answer @g (agent-error g) (remove (fn [[_ old new]] (= old new)) @seen)])))
  => [[5 6 nil [[:w 5 6]]] [5 5 nil []]]
  ;; The validator is asked.
  (let [g (failed-agent 1 :validator pos?)]
    [(fault (restart-agent g 0)) @g (failure g)])
  => [invalid 1 "boom"])

(row "(set-error-mode! a mode)"
  (let [g (agent 0)] (set-error-mode! g :continue) (error-mode g)) => :continue
  (let [g (failed-agent 0)]
    (set-error-mode! g :continue)
    [(failure g) (fault (send g inc))])
  => ["boom" "Agent is failed, needs restart"])

(row ":error-handler"
  (let [seen (promise), g (agent 0 :error-handler (fn [g e] (deliver seen [@g (.getMessage ^Throwable e)])))]
    (send g boom)
    [(deref seen limit :none) @g (agent-error g)])
  => [[0 "boom"] 0 nil])

(defn missing [& names] (remove #(ns-resolve 'clojure.core %) names))

(row "(await a b ..)"
  ;; It waits for what this thread sent before, and not in an action or a transaction.
  (let [g (agent 0)]
    (send g (fn [v] (Thread/sleep 50) (inc v)))
    (await g)
    @g)
  => 1
  ;; It waits for what others sent before, too: it sends an action of its own, which comes behind those.
  (let [g (agent 0), go (promise)]
    (send g (fn [v] @go (inc v)))
    @(future (send g inc))
    (deliver go true)
    (await g)
    @g)
  => 2
  ;; The watches have run.
  (let [g (agent 0), seen (atom [])]
    (add-watch g :k (fn [_ _ old new] (swap! seen conj [old new])))
    (send g inc)
    (await g)
    (first @seen))
  => [0 1]
  (let [g (agent nil)] (send g (fn [_] (fault (await (agent 0))))) (await g) @g) => "Can't await in agent action"
  (fault (dosync (await (agent 0)))) => "await in transaction"
  (fault (await (failed-agent 0))) => "Agent is failed, needs restart"
  ;; If the agent fails meanwhile, it waits until a restart.
  (let [g (agent 0), go (promise)]
    (send g (fn [_] @go (boom)))
    (let [waits (future (await g) :done)]
      (Thread/sleep 50)
      (deliver go true)
      (until #(agent-error g))
      [(deref waits 50 :waits) (do (restart-agent g 7) (deref waits limit :waits)) @g]))
  => [:waits :done 7])

(row "*agent*, await-for, await1"
  (missing '*agent* 'await-for 'await1) => []
  (let [g (agent 0)] (send g (fn [_] (= *agent* g))) (await g) [@g *agent*]) => [true nil]
  (let [g (agent 0), go (promise)]
    (send g (fn [v] @go (inc v)))
    [(await-for 20 g) (do (deliver go true) (await-for limit g))])
  => [false true])

(row "error-mode, error-handler, set-error-handler!, agent-errors, clear-agent-errors"
  (missing 'error-mode 'error-handler 'set-error-handler! 'agent-errors 'clear-agent-errors) => []
  (let [g (agent 0), seen (promise)]
    (set-error-handler! g (fn [g e] (deliver seen [@g (.getMessage ^Throwable e)])))
    (send g boom)
    [@seen (fn? (error-handler g)) (error-mode g)])
  => [[0 "boom"] true :fail]
  (let [g (failed-agent 0)]
    [(map #(.getMessage ^Throwable %) (agent-errors g)) (do (clear-agent-errors g) (agent-errors g))])
  => [["boom"] nil])

(row "send-off, send-via, release-pending-sends, set-agent-send-executor!, set-agent-send-off-executor!"
  (missing 'send-off 'send-via 'release-pending-sends 'set-agent-send-executor! 'set-agent-send-off-executor!) => []
  (let [g (agent nil)]
    (send-off g (fn [_] (re-find #"[a-z-]+" (.getName (Thread/currentThread)))))
    (await g)
    @g)
  => "clojure-agent-send-off-pool-"
  (let [g (agent 0), h (agent 0)]
    (send g (fn [_] (send h inc) [(release-pending-sends) (elsewhere (await h) @h)]))
    (await g)
    @g)
  => [1 1])

;; ---- all of them

(row "(set-validator! r f), (get-validator r)"
  (for [r [(ref 1) (atom 1) (agent 1)]]
    [(get-validator r) (set-validator! r pos?) (= pos? (get-validator r))
     (fault (set-validator! r neg?)) (= pos? (get-validator r))
     (set-validator! r nil) (get-validator r)])
  => (repeat 3 [nil nil true invalid true nil nil]))

(row "(add-watch r key f)"
  ;; A change to an equal value is one too.
  (let [r (ref 0), a (atom 0), g (agent 0), seen (atom [])]
    (doseq [[key x] {:ref r :atom a :agent g}] (add-watch x key (noting seen)))
    (dosync (ref-set r 0))
    (reset! a 0)
    (send g identity)
    (until #(= 3 (count @seen)))
    @seen)
  => [[:ref 0 0] [:atom 0 0] [:agent 0 0]]
  ;; No change, no notice.
  (let [r (ref 0), a (atom 0), seen (atom [])]
    (doseq [x [r a]] (add-watch x :w (noting seen)))
    (dosync (ensure r))
    (compare-and-set! a 1 2)
    @seen)
  => []
  (let [a (atom 0), seen (atom [])]
    (add-watch a :w boom)
    (add-watch a :w (noting seen))
    (swap! a inc)
    @seen)
  => [[:w 0 1]])

(row "the order in which the watches of a reference are called"
  (for [[r change] [[(ref 0) #(dosync (alter % inc))] [(atom 0) #(swap! % inc)] [(agent 0) #(do (send % inc) (await %))]]]
    (let [seen (atom [])]
      (doseq [k [:a :b :c :d]] (add-watch r k (noting seen)))
      (change r)
      (map first (take 4 @seen))))
  => (repeat 3 [:c :b :d :a])
  (keys (hash-map :a 1 :b 2 :c 3 :d 4)) => [:c :b :d :a])

(row "the order of the refs of a commit"
  (let [refs (repeatedly 64 #(ref 0)), seen (atom [])]
    (doseq [[i r] (map vector (range) refs)] (add-watch r i (noting seen)))
    (dosync (doseq [r refs] (alter r inc)))
    [(= (range 64) (sort (map first @seen))) (= (range 64) (map first @seen))])
  => [true false])

(row "a watch that throws"
  ;; :c is called first, and then :b; of two refs one.
  (let [a (atom 0), seen (atom [])]
    (add-watch a :c boom)
    (add-watch a :b (noting seen))
    [(fault (swap! a inc)) @a @seen])
  => ["boom" 1 []]
  (let [r (ref 0), g (agent 0), seen (atom [])]
    (add-watch r :c boom)
    (add-watch r :b (noting seen))
    [(fault (dosync (alter r inc) (send g inc))) @r @seen (do (await g) @g)])
  => ["boom" 1 [] 0]
  (let [p (ref 0), q (ref 0), calls (atom 0)]
    (doseq [r [p q]] (add-watch r :w (fn [& _] (swap! calls inc) (boom))))
    [(fault (dosync (alter p inc) (alter q inc))) @p @q @calls])
  => ["boom" 1 1 1]
  ;; The agent has the new state, and is failed.
  (let [g (agent 0)]
    (add-watch g :w boom)
    (send g inc)
    (until #(agent-error g))
    [@g (failure g) (fault (send g inc))])
  => [1 "boom" "Agent is failed, needs restart"])

(row "(remove-watch r key)"
  (let [a (atom 0), seen (atom [])]
    (add-watch a :w (noting seen))
    [(= a (remove-watch a :w)) (= a (remove-watch a :w)) (swap! a inc) @seen])
  => [true true 1 []])

(row "@a of an atom or an agent"
  [@(atom 7) @(agent 7)] => [7 7]
  ;; While an action runs, in it and elsewhere.
  (let [g (agent 0)]
    (send g (fn [_] [@g (elsewhere @g)]))
    (send g conj 1)
    (await g)
    @g)
  => [0 0 1])

(row "metadata, io!, sync, vars, history settings"
  (map meta [(ref 0 :meta {:a 1}) (atom 0 :meta {:a 1}) (agent 0 :meta {:a 1})]) => (repeat 3 {:a 1})
  [(io! 1) (fault (dosync (io! 1)))] => [1 "I/O in transaction"]
  (let [r (ref 0)] [(sync nil (alter r inc)) @r]) => [1 1]
  (let [r (ref 0)] [(ref-min-history r) (ref-max-history r) (ref-history-count r)]) => [0 10 0]
  ;; As many older values as the history has to have.
  (let [r (ref 0 :min-history 2)] (dotimes [_ 5] (dosync (alter r inc))) (ref-history-count r)) => 2)

;; ---- functions

(defn class-thrown [f & args] (class (thrown (apply f args))))

(row "+, -, inc, dec, max, min"
  [(+ 2) (+ 2 3 4) (- 2) (- 2 3 4) (inc 2) (dec 2) (max 2) (max 2 7 3) (min 2 7 -3)] => [2 9 -2 -5 3 1 2 7 -3]
  (map #(apply class-thrown %) [[+ Long/MAX_VALUE 1] [+ Long/MAX_VALUE 1 -1] [- Long/MIN_VALUE] [inc Long/MAX_VALUE] [dec Long/MIN_VALUE]])
  => (repeat 5 ArithmeticException)
  [(+ 1 1.5) (max 1 2.5) (inc 1/2)] => [2.5 2.5 3/2])

(row "conj"
  [(conj [1] 2 [3]) (conj #{1} 2 1) (conj [1])] => [[1 2 [3]] #{1 2} [1]]
  [(conj nil 1 2) (conj '(1) 2 3) (conj {:a 1} [:b 2])] => ['(2 1) '(3 2 1) {:a 1 :b 2}]
  (class-thrown conj 1 2) => ClassCastException)

(row "assoc"
  [(assoc {:a 1} :a 2 :b 3) (assoc nil :a 1)] => [{:a 2 :b 3} {:a 1}]
  (assoc [1 2] 0 5) => [5 2]
  (map class-thrown [assoc assoc] [{} 1] [:a :a]) => [clojure.lang.ArityException clojure.lang.ArityException]
  (class-thrown assoc #{} :a 1) => ClassCastException)

(row "dissoc, disj"
  [(dissoc {:a 1 :b 2} :a :c) (dissoc {:a 1}) (disj #{1 2} 1 3) (disj #{1})] => [{:b 2} {:a 1} #{2} #{1}]
  [(dissoc nil :a) (disj nil 1)] => [nil nil]
  (map class-thrown [dissoc disj] [[1] [1]] [0 1]) => [ClassCastException ClassCastException])

(row ">=, <="
  [(>= 2 1) (>= 1 2) (<= 2 2) (<= 3 2)] => [true false true false]
  (map class-thrown [>= <=] ["2" :a] [1 1]) => [ClassCastException ClassCastException])

(row "=, int?, string?, vector?, map?, set?, some?"
  (for [x [1 "a" [] {} #{} false nil]] (mapv #(% x) [#(= 1 %) int? string? vector? map? set? some?]))
  => [[true true false false false false true]
      [false false true false false false true]
      [false false false true false false true]
      [false false false false true false true]
      [false false false false false true true]
      [false false false false false false true]
      [false false false false false false false]])

;; ---- EDN and threads

(row "(clojure.edn/read-string s)"
  (edn/read-string "{:a [1 #{2}]}") => {:a [1 #{2}]})

(def in-script *print-namespace-maps*)

(row "(pr-str v)"
  ;; Of up to 8 entries in the order of adding, of more in that of hashes.
  (map pr-str [{:b 1 :a 2} (assoc {:b 1} :a 2)]) => ["{:b 1, :a 2}" "{:b 1, :a 2}"]
  (map pr-str [(zipmap (range 8 0 -1) (range 8)) (zipmap (range 9 0 -1) (range 9))])
  => ["{8 0, 7 1, 6 2, 5 3, 4 4, 3 5, 2 6, 1 7}" "{7 2, 1 8, 4 5, 6 3, 3 6, 2 7, 9 0, 5 4, 8 1}"]
  (pr-str #{:b :a 7 "x"}) => "#{7 \"x\" :b :a}"
  ;; At a REPL and in a script it is true, and else false.
  (for [once [true false]] (binding [*print-namespace-maps* once] (pr-str {:a/b 1}))) => ["#:a{:b 1}" "{:a/b 1}"]
  [in-script (elsewhere *print-namespace-maps*)] => [true false])

(row "a byte-order mark before a text"
  (map edn/read-string ["\ufeffa" "\ufeff{:a 1}"]) => [(symbol "\ufeffa") (symbol "\ufeff")])

(row "Threads"
  ;; Who holds one ref keeps nobody from others, nor from atoms and agents.
  (let [held (ref 0), free (ref 0), a (atom 0), g (agent 0)]
    (dosync (alter held inc)
            (elsewhere (send g inc) (await g) [(dosync (alter free inc)) (swap! a inc) @g])))
  => [1 1 1])

(row "(future ..)"
  @(future (+ 1 2)) => 3
  ;; In a transaction: no part of it, and run at each try.
  (let [r (ref 0), a (atom 0), tries (atom 0)]
    (dosync @(future (swap! a inc)) (meanwhile tries (dosync (alter r inc))) (alter r inc))
    [@a @r])
  => [2 2]
  (let [r (ref 0), s (ref 0)] [(fault (dosync (alter r inc) @(future (dosync (alter s + 10))) (boom))) @r @s])
  => ["boom" 0 10])

(row "(promise), (deliver p v)"
  (let [p (promise), got (start #(deref p))] (deliver p 1) (deliver p 2) [(outcome got) @p]) => [1 1])

(row "(delay ..)"
  (let [times (atom 0), d (delay (swap! times inc))] [@times @d @d @times]) => [0 1 1 1])

(row "(locking x ..)"
  (let [x (Object.), seen (atom [])]
    (let [other (locking x
                  (let [other (start #(locking x (swap! seen conj :other)))]
                    (Thread/sleep 20)
                    (swap! seen conj :first)
                    other))]
      (outcome other)
      @seen))
  => [:first :other])

(row "The order of notices"
  ;; Of two threads the second one's comes first.
  (for [[r change] [[(ref 0) #(dosync (alter % inc))] [(atom 0) #(swap! % inc)]]]
    (let [seen (atom []), stopped (promise), go (promise)]
      (add-watch r :w (fn [_ _ _ new] (when (= new 1) (deliver stopped true) @go) (swap! seen conj new)))
      (let [first-one (start #(change r))]
        @stopped
        (change r)
        (deliver go true)
        (outcome first-one)
        @seen)))
  => [[2 1] [2 1]]
  ;; An agent's watch has returned before the next action begins.
  (let [g (agent 0), seen (atom []), sent (promise)]
    (add-watch g :w (fn [_ _ _ new] (when (= new 1) @sent (Thread/sleep 50)) (swap! seen conj new)))
    (send g inc)
    (send g (fn [v] (swap! seen conj :next) (inc v)))
    (deliver sent true)
    (until #(= 3 (count @seen)))
    @seen)
  => [1 :next 2])

;; ---- the last row, since no action is run after it

(row "(shutdown-agents)"
  ;; In a pool of one thread an action of `runs` is run, and one of `next` comes after it. One of `runs` waits behind its first.
  ;; One is sent later to `late`, and one to `told`, whose error handler is told.
  (let [runs (agent 0), next (agent 0), late (agent 0), error (promise), told (agent 0 :error-handler (fn [_ e] (deliver error (class e))))
        begun (promise), go (promise)]
    (set-agent-send-executor! (Executors/newFixedThreadPool 1))
    (send runs (fn [v] (deliver begun true) @go (inc v)))
    (send runs inc)
    (send next inc)
    @begun
    (shutdown-agents)
    (send told inc)
    [(= late (send late inc))
     @error
     (do (deliver go true)
         (until #(= [1 1 1 0] [@runs (waiting runs) @next (waiting next)]))
         (Thread/sleep 50)
         (for [g [runs next late]] [@g (waiting g) (agent-error g)]))])
  => [true RejectedExecutionException [[1 1 nil] [1 0 nil] [0 1 nil]]])
