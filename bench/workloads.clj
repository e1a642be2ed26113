;; The same workload in Clojure: clojure workloads.clj FILE ROUNDS WARM-UP-MILLIS
;; Prints `round NANOS` of each round after the warm-up, and then the report of the last one, without refused steps one by one
;; and without an audit: there is no log. It knows the forms that workload_shapes.py writes.
(require '[clojure.edn :as edn])
(import '(java.util.concurrent Callable Executors ExecutorService))

(def functions {'+ + '- -})

(def predicates {'>= (fn [v n] (and (int? v) (>= v n))), 'int? int?})

(defn rule [[p & args]]
  (when p (let [accepts (predicates p)] (fn [v] (apply accepts v args)))))

(defn references [make declared]
  (into {} (for [[name value & more] declared]
             [name (make value :validator (rule (first (filter vector? more))))])))

;; A fresh world, as maps from names.
(defn world [{:keys [refs atoms agents]}]
  {:refs (references ref refs) :atoms (references atom atoms) :agents (references agent agents)})

;; What calls `change` on x by f and its arguments, without `apply` where there is one.
(defmacro call [change x f args]
  `(let [x# ~x, f# (functions ~f), args# (vec ~args), a# (first args#)]
     (if (= 1 (count args#)) (fn [] (~change x# f# a#)) (fn [] (apply ~change x# f# args#)))))

(defn operation [{:keys [refs agents]} [word name f & args]]
  (case word
    :alter (call alter (refs name) f args)
    :commute (call commute (refs name) f args)
    :ensure (let [r (refs name)] #(ensure r))
    :require (let [r (refs name), accepts (rule (cons f args))]
               #(when-not (accepts @r) (throw (IllegalStateException. "not met"))))
    :send (call send (agents name) f args)))

;; Clojure gives a transaction up after 10,000 tries. Here none is to give up, so it is begun again.
(defn gave-up? [^Throwable why]
  (= (.getMessage why) "Transaction failed after reaching retry limit"))

;; A step is a function that answers how many commits it made; one that a rule refuses makes none.
(defn transaction [world operations]
  (let [^objects all (object-array (map #(operation world %) operations))
        once #(try (dosync (dotimes [i (alength all)] ((aget all i)))) 1
                   (catch IllegalStateException _ 0)
                   (catch RuntimeException why (if (gave-up? why) nil (throw why))))]
    #(loop [] (or (once) (recur)))))

(defn step [{:keys [atoms agents] :as world} [word name f & args :as all]]
  (case word
    :tx (transaction world (rest all))
    :swap (let [act (call swap! (atoms name) f args)] #(do (act) 0))
    :send (let [act (call send (agents name) f args)] #(do (act) 0))))

(defn run-all ^long [^objects steps]
  (loop [i 0, commits 0]
    (if (< i (alength steps)) (recur (inc i) (+ commits (long ((aget steps i))))) commits)))

;; The nanoseconds, the commits and the world of a run. Making the world and the steps is not in the time.
(defn round [^ExecutorService threads {:keys [workers] :as workload}]
  (let [world (world workload)
        jobs (vec (for [steps workers]
                    (let [all (object-array (map #(step world %) steps))] ^Callable (fn [] (run-all all)))))
        start (System/nanoTime)
        commits (mapv deref (.invokeAll threads ^java.util.Collection jobs))]
    (apply await (vals (:agents world)))
    [(- (System/nanoTime) start) (reduce + commits) world]))

(defn report [{:keys [refs atoms agents]} world commits]
  (doseq [[name] refs] (println "ref" name @((:refs world) name)))
  (doseq [[name] atoms] (println "atom" name @((:atoms world) name)))
  (doseq [[name] agents] (println "agent" name @((:agents world) name) (if (agent-error ((:agents world) name)) "failed" "ready")))
  (println "commits" commits))

(let [[file rounds millis] *command-line-args*
      [rounds millis] (map #(Long/parseLong %) [rounds millis])
      workload (edn/read-string (slurp file :encoding "UTF-8"))
      threads (Executors/newFixedThreadPool (count (:workers workload)))
      start (System/nanoTime)]
  (set-agent-send-executor! (Executors/newFixedThreadPool (:pool workload)))
  (loop []
    (round threads workload)
    (when (< (/ (- (System/nanoTime) start) 1e6) millis) (recur)))
  (loop [left rounds]
    (let [[nanos commits world] (round threads workload)]
      (println "round" nanos)
      (if (> left 1) (recur (dec left)) (report workload world commits))))
  (flush)
  (System/exit 0))
