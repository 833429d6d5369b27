// Runs Kubernetes' own CronJob controllers and nothing else: no leader election, no other
// controller. It is built among the sources of Kubernetes 1.20, as README.md says.
//
// usage: cjonly -kubeconfig FILE [-one] [-two] [-workers N]
package main

import (
	"flag"
	"time"

	"k8s.io/client-go/informers"
	"k8s.io/client-go/kubernetes"
	"k8s.io/client-go/tools/clientcmd"
	"k8s.io/klog/v2"
	"k8s.io/kubernetes/pkg/controller/cronjob"
)

var (
	kubeconfig = flag.String("kubeconfig", "", "which cluster")
	one        = flag.Bool("one", false, "the first controller, which polls")
	two        = flag.Bool("two", false, "the second controller, which watches")
	workers    = flag.Int("workers", 5, "workers of the second controller")
)

func check(err error) {
	if err != nil {
		klog.Fatal(err)
	}
}

func main() {
	klog.InitFlags(nil)
	flag.Parse()
	config, err := clientcmd.BuildConfigFromFlags("", *kubeconfig)
	check(err)
	// As kube-controller-manager has them.
	config.QPS, config.Burst = 20, 30
	client, stop := kubernetes.NewForConfigOrDie(config), make(chan struct{})
	if *two {
		factory := informers.NewSharedInformerFactory(client, 12*time.Hour)
		batch := factory.Batch()
		controller, err := cronjob.NewControllerV2(batch.V1().Jobs(), batch.V1beta1().CronJobs(), client)
		check(err)
		factory.Start(stop)
		go controller.Run(*workers, stop)
	}
	if *one {
		controller, err := cronjob.NewController(client)
		check(err)
		go controller.Run(stop)
	}
	select {}
}
