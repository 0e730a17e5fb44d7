import com.jcraft.jsch.JSch;
import com.jcraft.jsch.JSchException;
import com.jcraft.jsch.Session;
import java.io.BufferedReader;
import java.io.File;
import java.io.IOException;
import java.io.InputStreamReader;
import java.nio.charset.StandardCharsets;
import java.util.Arrays;
import java.util.List;
import java.util.stream.Collectors;
import org.eclipse.jgit.api.Git;
import org.eclipse.jgit.api.TransportCommand;
import org.eclipse.jgit.lib.Ref;
import org.eclipse.jgit.transport.JschConfigSessionFactory;
import org.eclipse.jgit.transport.OpenSshConfig;
import org.eclipse.jgit.transport.PushResult;
import org.eclipse.jgit.transport.RefSpec;
import org.eclipse.jgit.transport.RemoteRefUpdate;
import org.eclipse.jgit.transport.SshSessionFactory;
import org.eclipse.jgit.transport.URIish;
import org.eclipse.jgit.transport.UsernamePasswordCredentialsProvider;
import org.eclipse.jgit.util.FS;

/** JGit as a client of the server: JGitClient.java KEY PASSWORD, with tasks on standard input (library_client.py). Over ssh it is JSch. */
public final class JGitClient {
  private final String password;

  private JGitClient(String password) {
    this.password = password;
  }

  public static void main(String[] words) throws IOException {
    SshSessionFactory.setInstance(new OneKey(words[0]));
    JGitClient client = new JGitClient(words[1]);
    BufferedReader tasks = new BufferedReader(new InputStreamReader(System.in, StandardCharsets.UTF_8));
    for (String line = tasks.readLine(); line != null; line = tasks.readLine()) {
      List<String> task = Arrays.asList(line.split("\t"));
      try {
        client.perform(task.get(0), task.subList(1, task.size()));
      } catch (Exception error) {
        tellError(error);
      }
      tell("done");
    }
  }

  /** Every sentence that a user of Eclipse can open: that of the exception, and those of its causes. */
  private static void tellError(Throwable error) {
    for (Throwable it = error; it != null; it = it.getCause()) {
      tell("error", it.toString());
    }
  }

  private static void tell(String... words) {
    System.out.println(Arrays.stream(words).map(it -> String.valueOf(it).strip().replaceAll("\\s+", " ")).collect(Collectors.joining("\t")));
  }

  private void perform(String name, List<String> words) throws Exception {
    switch (name) {
      case "clone":
        with(Git.cloneRepository().setURI(words.get(0)).setDirectory(new File(words.get(1))).setBare(true), words.get(0)).call().close();
        break;
      case "push":
        push(words.get(0), words.get(1), words.subList(2, words.size()));
        break;
      case "fetch":
        fetch(words.get(0), words.get(1), words.subList(2, words.size()));
        break;
      case "list":
        for (Ref ref : with(Git.lsRemoteRepository().setRemote(words.get(1)), words.get(1)).call()) {
          tell("is", ref.getName(), ref.getObjectId().name());
        }
        break;
      default:
        throw new IllegalArgumentException(name);
    }
  }

  private <C extends TransportCommand<C, ?>> C with(C command, String url) throws Exception {
    String user = new URIish(url).getUser();
    return command.setCredentialsProvider(new UsernamePasswordCredentialsProvider(user, password));
  }

  private void push(String folder, String url, List<String> refspecs) throws Exception {
    try (Git git = Git.open(new File(folder))) {
      Iterable<PushResult> results = with(git.push().setRemote(url).setRefSpecs(specs(refspecs)), url).call();
      for (PushResult result : results) {
        for (RemoteRefUpdate update : result.getRemoteUpdates()) {
          tellUpdate(update);
        }
        result.getMessages().lines().forEach(line -> tell("said", line));
      }
    }
  }

  private static void tellUpdate(RemoteRefUpdate update) {
    switch (update.getStatus()) {
      case OK:
      case UP_TO_DATE:
        tell("ok", update.getRemoteName());
        break;
      default:
        tell("ng", update.getRemoteName(), update.getStatus() + " " + update.getMessage());
    }
  }

  private void fetch(String folder, String url, List<String> refspecs) throws Exception {
    try (Git git = Git.open(new File(folder))) {
      with(git.fetch().setRemote(url).setRefSpecs(specs(refspecs)), url).call();
    }
  }

  private static List<RefSpec> specs(List<String> texts) {
    return texts.stream().map(RefSpec::new).collect(Collectors.toList());
  }

  /** Sessions of ssh with one key, which ask nobody about the host. */
  private static final class OneKey extends JschConfigSessionFactory {
    private final String key;

    private OneKey(String key) {
      this.key = key;
    }

    @Override
    protected void configure(OpenSshConfig.Host host, Session session) {
      session.setConfig("StrictHostKeyChecking", "no");
    }

    @Override
    protected JSch createDefaultJSch(FS fs) throws JSchException {
      JSch sessions = new JSch();
      sessions.addIdentity(key);
      return sessions;
    }
  }
}
