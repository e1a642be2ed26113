;; How fast Clojure reads and prints a text of EDN: clojure clojure.clj FILE SECONDS
;; It does each for SECONDS, and 7 times at least. The first third is the warm-up, which does not count.
;; Prints `read BEST MEDIAN` and `print BEST MEDIAN`, in milliseconds.
(require '[clojure.edn :as edn])

(defn millis [f]
  (let [start (System/nanoTime)]
    (f)
    (/ (- (System/nanoTime) start) 1e6)))

(defn times [f seconds]
  (let [until (+ (System/nanoTime) (long (* seconds 1e9)))]
    (loop [all []]
      (if (and (>= (count all) 7) (> (System/nanoTime) until))
        (vec (sort (drop (quot (count all) 3) all)))
        (recur (conj all (millis f)))))))

(defn report [what f seconds]
  (let [all (times f seconds)]
    (println what (first all) (nth all (quot (count all) 2)))
    (flush)))

(defn printed [x room]
  (let [out (java.io.StringWriter. (int room))]
    (binding [*out* out] (pr x))
    (.length (.getBuffer out))))

(let [[file seconds] *command-line-args*
      seconds (Double/parseDouble seconds)
      text (slurp file :encoding "UTF-8")]
  ;; No value is held while the next one is read: with one held, reading is slower.
  (report "read" #(edn/read-string text) seconds)
  (let [x (edn/read-string text)
        room (printed x 16)]
    (report "print" #(printed x room) seconds)))
