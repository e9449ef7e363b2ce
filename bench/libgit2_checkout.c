/* libgit2_checkout GITDIR TREE: checks out the index of a repository into an empty folder, by libgit2 */
#include <git2.h>
#include <stdio.h>

int main(int count, char **words)
{
	git_repository *repository = NULL;
	git_checkout_options options = GIT_CHECKOUT_OPTIONS_INIT;
	int failed;

	if (count != 3)
		return 2;
	git_libgit2_init();
	options.checkout_strategy = GIT_CHECKOUT_FORCE | GIT_CHECKOUT_DONT_UPDATE_INDEX;
	options.target_directory = words[2];
	failed = git_repository_open(&repository, words[1]) < 0 || git_checkout_index(repository, NULL, &options) < 0;
	if (failed)
		fprintf(stderr, "libgit2: %s\n", git_error_last() ? git_error_last()->message : "no message");
	git_repository_free(repository);
	git_libgit2_shutdown();
	return failed;
}
