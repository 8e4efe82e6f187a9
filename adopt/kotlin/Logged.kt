// Records the calls on channels as events, of which `fill.py` makes a history. Wrap each channel, and give each coroutine a tag:
//
//     val recorder = Recorder()
//     val a = recorder.channel("a", "rendezvous", Channel<Long>())
//     launch(Tag(1)) { a.receive() }
//     launch(Tag(2)) { a.send(5) }
//     ..
//     File("run.events").writeText(recorder.text())
//
// Written for kotlinx.coroutines 1.0.1; what later versions call otherwise is named at its place. An event is added under one lock, right
// before a call and right after its answer. On one thread the order of the events is that of the calls; on several threads the two events
// of a call only bound the moment at which it took effect.

import kotlin.coroutines.AbstractCoroutineContextElement
import kotlin.coroutines.CoroutineContext
import kotlin.coroutines.coroutineContext
import kotlinx.coroutines.*
import kotlinx.coroutines.channels.*

/** The number of a coroutine in the history, 0 to 65535. */
class Tag(val number: Int) : AbstractCoroutineContextElement(Tag) {
    companion object Key : CoroutineContext.Key<Tag>
}

class Recorder {
    private val lines = ArrayList<String>()
    private val declared = ArrayList<String>()

    @Synchronized fun note(line: String) {
        lines.add(line)
    }

    /** `kind` as in a script: rendezvous, buffered 2, unlimited or conflated, and of later versions dropoldest 3 or droplatest 3. */
    @Synchronized fun channel(name: String, kind: String, inner: Channel<Long>): LoggedChannel {
        declared.add("channel $name $kind")
        return LoggedChannel(name, inner, this)
    }

    @Synchronized fun text(): String = (declared + "events" + lines).joinToString("\n", postfix = "\n")
}

/** The calls of a channel of numbers. For elements of another type, record a number that names the element. */
class LoggedChannel(val name: String, private val inner: Channel<Long>, private val to: Recorder) {
    private suspend fun tag(): Int = coroutineContext[Tag]?.number ?: 0

    suspend fun send(value: Long) {
        val tag = tag()
        to.note("$tag call send $name $value")
        try {
            inner.send(value)
            to.note("$tag back send $name $value sent")
        } catch (x: ClosedSendChannelException) {
            to.note("$tag back send $name $value closed")
            throw x
        } catch (x: CancellationException) {
            to.note("$tag back send $name $value cancelled")
            throw x
        }
    }

    suspend fun receive(): Long {
        val tag = tag()
        to.note("$tag call receive $name")
        try {
            val value = inner.receive()
            to.note("$tag back receive $name value $value")
            return value
        } catch (x: ClosedReceiveChannelException) {
            to.note("$tag back receive $name closed")
            throw x
        } catch (x: CancellationException) {
            to.note("$tag back receive $name cancelled")
            throw x
        }
    }

    // Each of these is one step, so its event is added together with the call. Later versions: trySend, tryReceive, isSuccess, isClosed.
    suspend fun trySend(value: Long): Boolean = tryNow(tag()) { tag ->
        try {
            val done = inner.offer(value)
            to.note("$tag trysend $name $value ${if (done) "sent" else "full"}")
            done
        } catch (x: ClosedSendChannelException) {
            to.note("$tag trysend $name $value closed")
            false
        }
    }

    suspend fun tryReceive(): Long? = tryNow(tag()) { tag ->
        val closed = inner.isClosedForReceive
        val value = inner.poll()
        to.note("$tag tryreceive $name ${if (value != null) "value $value" else if (closed) "closed" else "empty"}")
        value
    }

    suspend fun close(): Boolean = tryNow(tag()) { tag ->
        val first = inner.close()
        to.note("$tag close $name ${if (first) "first" else "again"}")
        first
    }

    private fun <T> tryNow(tag: Int, call: (Int) -> T): T = synchronized(to) { call(tag) }

    /** Write `for (x in channel) ..` as `channel.each { x -> .. }`. */
    suspend fun each(body: suspend (Long) -> Unit) {
        while (true) {
            val value = try {
                receive()
            } catch (x: ClosedReceiveChannelException) {
                return
            }
            body(value)
        }
    }
}
