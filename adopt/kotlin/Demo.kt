import kotlinx.coroutines.*
import kotlinx.coroutines.channels.*
import java.io.File

/** Runs on one thread, so that the order of the events is that of the calls, and writes them to a file. */
fun demo(name: String, run: suspend CoroutineScope.(Recorder) -> Unit) {
    val recorder = Recorder()
    try {
        runBlocking { coroutineScope { run(recorder) } }
    } catch (x: Throwable) {
        System.err.println("$name: $x")
    }
    File("$name.events").writeText(recorder.text())
}

fun main() {
    demo("handoff") { r ->
        val a = r.channel("a", "rendezvous", Channel(Channel.RENDEZVOUS))
        launch(Tag(1)) { a.receive() }
        launch(Tag(2)) { a.send(5) }
        launch(Tag(3)) { a.send(6) }
        launch(Tag(4)) { yield(); a.receive() }
    }
    demo("buffered") { r ->
        val a = r.channel("a", "buffered 2", Channel(2))
        launch(Tag(1)) { for (i in 1L..6L) a.send(i); a.close() }
        launch(Tag(2)) { yield(); a.each { yield() } }
    }
    demo("cancelled") { r ->
        val a = r.channel("a", "rendezvous", Channel(Channel.RENDEZVOUS))
        val first = launch(Tag(1)) { a.receive() }
        launch(Tag(2)) { a.receive() }
        yield()
        first.cancel()
        launch(Tag(3)) { a.send(7) }
    }
    demo("tries") { r ->
        val a = r.channel("a", "buffered 1", Channel(1))
        launch(Tag(1)) { a.trySend(1); a.trySend(2); a.tryReceive(); a.tryReceive(); a.close(); a.tryReceive() }
    }
    // kotlinx.coroutines 1.0.1 loses the last element of a conflated channel that is closed.
    demo("conflated") { r ->
        val a = r.channel("a", "conflated", Channel(Channel.CONFLATED))
        launch(Tag(1)) { a.send(1); a.send(2); a.send(3); a.close() }
        launch(Tag(2)) { a.each { } }
    }
    // Many coroutines on one thread.
    demo("many") { r ->
        val a = r.channel("a", "buffered 3", Channel(3))
        val b = r.channel("b", "rendezvous", Channel(Channel.RENDEZVOUS))
        for (k in 1..20) launch(Tag(k)) { for (i in 1L..200L) a.send(1000L * k + i) }
        for (k in 21..40) launch(Tag(k)) { for (i in 1..200) b.send(a.receive()) }
        for (k in 41..60) launch(Tag(k)) { for (i in 1..200) b.receive() }
    }
}
