package main

import (
	"log"
	"net/http"
	"runtime"
	"time"

	"capvet.invalid/capvet"
	"github.com/prometheus/client_golang/prometheus"
	"github.com/prometheus/client_golang/prometheus/collectors"
	"github.com/prometheus/client_golang/prometheus/promhttp"
)

// directionMetrics are those of one direction, found once.
type directionMetrics struct {
	messages, bytes prometheus.Counter
	vetSeconds      prometheus.Observer
}

// metrics are what Prometheus reads.
type metrics struct {
	registry   *prometheus.Registry
	stages     [len(stages)]prometheus.Gauge
	accepted   prometheus.Counter
	rejected   *prometheus.CounterVec
	ended      *prometheus.CounterVec
	refusals   *prometheus.CounterVec
	unreached  *prometheus.CounterVec
	handshakes *prometheus.CounterVec
	handshake  *prometheus.HistogramVec
	directions [2]directionMetrics
}

func newMetrics(g *guard) *metrics {
	m := &metrics{registry: prometheus.NewRegistry()}
	m.addConnections()
	m.addMessages()
	m.addLimits(g.options)
	m.addStates(g)
	m.registry.MustRegister(collectors.NewGoCollector(), collectors.NewProcessCollector(collectors.ProcessCollectorOpts{}))
	return m
}

// counter adds a counter.
func (m *metrics) counter(name, help string, labels ...string) *prometheus.CounterVec {
	vec := prometheus.NewCounterVec(prometheus.CounterOpts{Namespace: "capvet_guard", Name: name, Help: help}, labels)
	m.registry.MustRegister(vec)
	return vec
}

// gauge adds a gauge.
func (m *metrics) gauge(name, help string, labels ...string) *prometheus.GaugeVec {
	vec := prometheus.NewGaugeVec(prometheus.GaugeOpts{Namespace: "capvet_guard", Name: name, Help: help}, labels)
	m.registry.MustRegister(vec)
	return vec
}

// histogram adds a histogram of times from this one on, each bucket 4 times the one before.
func (m *metrics) histogram(name, help string, least float64, labels ...string) *prometheus.HistogramVec {
	vec := prometheus.NewHistogramVec(prometheus.HistogramOpts{Namespace: "capvet_guard", Name: name, Help: help,
		Buckets: prometheus.ExponentialBuckets(least, 4, 11)}, labels)
	m.registry.MustRegister(vec)
	return vec
}

// addConnections adds what is counted of connections. Each label is there from the start, at 0.
func (m *metrics) addConnections() {
	connections := m.gauge("connections", "Connections of clients that have a place, by the state.", "state")
	for at := greeting; at <= serving; at++ {
		m.stages[at] = connections.WithLabelValues(stages[at])
	}
	m.accepted = m.counter("connections_total", "Connections of clients that were served.").WithLabelValues()
	m.rejected = m.counter("connections_rejected_total", "Connections of clients that were not served, by the cause.", "cause")
	for _, it := range []cause{manyConnections, manyOfPeer, overRateOfPeer, badGreeting, noServer} {
		m.rejected.WithLabelValues(string(it))
	}
	m.ended = m.counter("connections_ended_total", "Connections that have ended, by the cause.", "cause")
	for _, it := range []cause{closed, refused, messageTimeout, idleTimeout, noMemory, failed, stopped} {
		m.ended.WithLabelValues(string(it))
	}
	m.unreached = m.counter("connect_failures_total", "How often an address of the server could not be reached.", "server")
	m.handshakes = m.counter("handshakes_total", "Handshakes of TLS, by the side and the result.", "side", "result")
	m.handshake = m.histogram("handshake_seconds", "Time of the handshakes of TLS that were done.", 1e-4, "side")
	for _, at := range []side{client, server} {
		m.handshake.WithLabelValues(at.String())
		m.handshakes.WithLabelValues(at.String(), "done")
		m.handshakes.WithLabelValues(at.String(), "failed")
	}
}

// shaken counts a handshake.
func (m *metrics) shaken(at side, took time.Duration, err error) {
	if err != nil {
		m.handshakes.WithLabelValues(at.String(), "failed").Inc()
		return
	}
	m.handshakes.WithLabelValues(at.String(), "done").Inc()
	m.handshake.WithLabelValues(at.String()).Observe(took.Seconds())
}

// addMessages adds what is counted of messages.
func (m *metrics) addMessages() {
	messages := m.counter("messages_total",
		"Messages that were vetted and written to the connection of the other side, which may not have received them yet.", "direction")
	bytes := m.counter("bytes_total", "Bytes that were written to the connection of the other side, unpacked.", "direction")
	seconds := m.histogram("vet_seconds", "Time to vet what came together: a message, or several small ones.", 1e-6, "direction")
	m.refusals = m.counter("refusals_total", "Messages that were not accepted, by direction and reason.", "direction", "reason")
	for _, d := range []direction{requests, replies} {
		label := d.String()
		m.directions[d] = directionMetrics{messages.WithLabelValues(label), bytes.WithLabelValues(label), seconds.WithLabelValues(label)}
		for _, reason := range reasons {
			m.refusals.WithLabelValues(label, reason.String())
		}
	}
}

// reasons are those of refused messages.
var reasons = []capvet.Reason{capvet.ReasonTooManySegments, capvet.ReasonTooLarge, capvet.ReasonTruncated, capvet.ReasonOverlap, capvet.ReasonNullPad, capvet.ReasonEmptySegment,
	capvet.ReasonCapabilityPad, capvet.ReasonManySegments, capvet.ReasonNoRoot, capvet.ReasonReserved, capvet.ReasonSegmentMissing, capvet.ReasonPadOutside, capvet.ReasonPadIsFar,
	capvet.ReasonPadNotFar, capvet.ReasonTagKind, capvet.ReasonTagOffset, capvet.ReasonOutOfSegment, capvet.ReasonCompositeTag, capvet.ReasonCompositeOverrun,
	capvet.ReasonDepthLimit, capvet.ReasonWordLimit}

// addLimits adds the limits and the versions.
func (m *metrics) addLimits(o *options) {
	limits := m.gauge("limit", "The limits that are set. 0 is no limit.", "limit")
	for name, value := range map[string]float64{
		"max_connections": float64(o.maxConnections), "max_per_peer": float64(o.maxPerPeer), "memory": float64(o.memory),
		"memory_per_peer": float64(o.memoryPerPeer), "size": float64(o.limits.MessageWords), "words": float64(o.limits.Charge),
		"depth": float64(o.limits.Depth), "connection_rate": float64(o.connectionRate), "message_rate": float64(o.messageRate),
		"byte_rate": float64(o.byteRate), "log_rate": float64(o.logRate), "refused_bytes": float64(o.refusedBytes),
	} {
		limits.WithLabelValues(name).Set(value)
	}
	m.gauge("build_info", "1, with the versions of the guard, of the library and of Go.", "version", "library", "go").
		WithLabelValues(version, capvet.Version(), runtime.Version()).Set(1)
}

// addStates adds what is known of the guard at any time.
func (m *metrics) addStates(g *guard) {
	number := func(of interface{ Load() int64 }) func() float64 { return func() float64 { return float64(of.Load()) } }
	opts := func(name, help, label, value string) prometheus.Opts {
		o := prometheus.Opts{Namespace: "capvet_guard", Name: name, Help: help}
		if label != "" {
			o.ConstLabels = prometheus.Labels{label: value}
		}
		return o
	}
	for _, l := range []loss{overRate, queueFull} {
		m.registry.MustRegister(prometheus.NewCounterFunc(prometheus.CounterOpts(opts("log_lines_dropped_total",
			"Lines of the log that were not written, by the cause.", "cause", l.String())), number(&g.log.dropped[l])))
	}
	for _, at := range []side{client, server} {
		m.registry.MustRegister(prometheus.NewGaugeFunc(prometheus.GaugeOpts(opts("certificate_expiry_timestamp_seconds",
			"When the certificate that is shown to a side expires, or 0.", "side", at.String())), number(&g.secrets.expiry[at])))
	}
	m.registry.MustRegister(prometheus.NewGaugeFunc(prometheus.GaugeOpts(opts("buffer_bytes",
		"Bytes of the buffers that --memory bounds.", "", "")), number(&g.memory.used)))
	if f := g.folder; f != nil {
		for result, n := range map[string]interface{ Load() int64 }{"kept": &f.kept, "dropped": &f.dropped} {
			m.registry.MustRegister(prometheus.NewCounterFunc(prometheus.CounterOpts(opts("refused_messages_total",
				"Refused messages that were kept in --refused-folder or not.", "result", result)), number(n)))
		}
	}
}

// handler serves /metrics, /health and /ready.
func (g *guard) handler() http.Handler {
	mux := http.NewServeMux()
	mux.Handle("/metrics", promhttp.HandlerFor(g.metrics.registry, promhttp.HandlerOpts{}))
	mux.HandleFunc("/health", func(w http.ResponseWriter, _ *http.Request) { g.answer(w, nil) })
	mux.HandleFunc("/ready", func(w http.ResponseWriter, _ *http.Request) { g.answer(w, g.servers.check) })
	return mux
}

// answer says that the guard serves, unless it drains or a check fails. Why the server can't be reached is in the log alone, since
// anybody may ask.
func (g *guard) answer(w http.ResponseWriter, check func() error) {
	switch {
	case g.isDraining.Load():
		http.Error(w, "draining", http.StatusServiceUnavailable)
	case check != nil && check() != nil:
		http.Error(w, "the server can't be reached", http.StatusServiceUnavailable)
	default:
		w.Write([]byte("ok\n"))
	}
}

// errorLines writes the errors of the server of the metrics to the log.
type errorLines struct{ log *logger }

func (e errorLines) Write(b []byte) (int, error) {
	e.log.connection(record{Event: "metrics", Text: string(b[:len(b)-1])})
	return len(b), nil
}

// httpServer returns a server for the metrics that slow peers can't hold up.
func (g *guard) httpServer() *http.Server {
	return &http.Server{Handler: g.handler(), ReadTimeout: 5 * time.Second, WriteTimeout: 10 * time.Second, IdleTimeout: 10 * time.Second,
		MaxHeaderBytes: 1 << 14, ErrorLog: log.New(errorLines{g.log}, "", 0)}
}
